#!/usr/bin/env python3
"""Draws what happened in a run, block by block: a market's price and best orders, its open interest, the insurance
fund, the fees, and the collateral of an account.

    examples/chart.py [--program P] [--scenario FILE] [--market N] [--account OWNER,NUMBER] [OUT.svg]

It runs the scenario, and draws from the replies to its `audit`, `balance`, `best` and `commit` lines at node 0.
Without a scenario it makes one of 200 blocks: an account that is paid 1,500 USD each 40 blocks trades with two others,
while the price walks at random, and is liquidated when it lacks margin.
It needs matplotlib (Debian: python3-matplotlib, for /usr/bin/python3), and says so where that is missing."""
import argparse
import json
import os
import random
import subprocess
import tempfile

BLOCKS, SEED = 200, 5
SOL = [-7, -9, 1_000_000, 1_000_000, -8, 15_000_000_000, 50_000, 600_000, 10_000_000_000, 120_000]
GENESIS = ["genesis", 1, 1_700_000_000, 50_000_000, 1, [500, 200, 5_000, 1_500_000, 1_000_000], [SOL]]
TRADER, MAKERS = [1, 0], ([2, 0], [3, 0])
SHORT_TERM, MARKET, GTC, IOC = 0, 0, 0, 1
DEPOSIT, STAKE, MAKERS_FUNDS = 1, 1_500_000_000, 200_000_000_000


def own_scenario():
    """The events of a run of 200 blocks, drawn at random from one seed."""
    draws, price = random.Random(SEED), 150.0
    yield GENESIS
    for maker in MAKERS:
        yield ["message", 0, [DEPOSIT, maker, MAKERS_FUNDS]]
    for height in range(1, BLOCKS + 1):
        if height % 40 == 1:
            yield ["message", 0, [DEPOSIT, TRADER, STAKE]]
        price *= 1 + draws.gauss(0, 0.015)
        yield ["feed", 0, MARKET, round(price * 10**8)]
        for maker in MAKERS if height > 1 else ():
            yield ["cancelall", 0, maker]
            for buys, level in ((1, 1 - draws.uniform(0.0005, 0.003)), (0, 1 + draws.uniform(0.0005, 0.003))):
                order = [2 * height + buys, SHORT_TERM, MARKET, buys, 400_000_000, round(price * level * 100) * 10**6]
                yield ["place", 0, [*maker, *order, height + 3, GTC]]
        if height > 1 and draws.random() < 0.3:
            buys, steps = draws.randrange(2), draws.randrange(200, 2_000)
            limit = round(price * (1.01 if buys else 0.99) * 100) * 10**6
            yield ["place", 0, [*TRADER, height, SHORT_TERM, MARKET, buys, steps * 10**6, limit, height + 3, IOC]]
        yield ["sweep", 0, TRADER]
        yield ["propose", 0, 0, 1_700_000_000 + 60 * height]
        yield ["commit", 0, 0]
        yield from (["audit", 0], ["balance", 0, TRADER], ["best", 0, MARKET])


def run(program, events):
    """The words of the reply to each event, without the line's number."""
    text = "".join(json.dumps(event) + "\n" for event in events)
    with tempfile.TemporaryDirectory() as folder:
        ran = subprocess.run([program], input=text, stdout=subprocess.PIPE, cwd=folder, text=True, check=True)
    return [line.split()[1:] for line in ran.stdout.splitlines()]


def audited(whole, markets, market):
    """What an audit adds to the chart, and the price of each market, in units of the settlement currency."""
    prices = [whole[9 + 9 * at] * 10.0 ** it[4] for at, it in enumerate(markets)]
    interest = whole[11 + 9 * market] * 10.0 ** markets[market][0]
    return {"price": prices[market], "open interest": interest, "fees": whole[4] / 10**6, "insurance": whole[7] / 10**6}, prices


def collateral(whole, markets, prices):
    """The quote of an account and what its positions are worth, in units of the settlement currency."""
    return whole[1] / 10**6 + sum(
        whole[at + 1] * 10.0 ** markets[whole[at]][0] * prices[whole[at]] for at in range(3, len(whole), 3)
    )


def series(events, replies, market, account):
    """For each line of the chart its points: a height and a number. Only replies of node 0 count."""
    markets, height, found = events[0][6], 0, {}
    prices = [it[5] * 10.0 ** it[4] for it in markets]
    per_subtick = 10.0 ** (markets[market][1] - markets[market][0] - 6)
    for event, (word, *told) in zip(events[1:], replies[1:]):
        if event[1] != 0 or told[0] in ("none", "empty", "refused", "bad"):
            continue
        points = {}
        if word == "commit":
            height = int(told[1])
        elif word == "audit":
            points, prices = audited(list(map(int, told)), markets, market)
        elif word == "balance" and event[2] == account:
            points = {"collateral": collateral(list(map(int, told)), markets, prices)}
        elif word == "best" and event[2] == market:
            levels = {"best bid": int(told[0]), "best ask": int(told[2])}
            points = {name: subticks * per_subtick for name, subticks in levels.items() if subticks}
        for name, value in points.items():
            found.setdefault(name, []).append((height, value))
    return found


def draw(plt, found, account, out):
    """Writes the chart as SVG."""
    panels = [("price", "best bid", "best ask"), ("open interest",), ("insurance",), ("fees",), ("collateral",)]
    titles = ["price and best orders, USD", "open interest, units of the asset", "insurance fund, USD", "fees, USD"]
    titles.append(f"collateral of account {account}, USD (funding that is not settled aside)")
    plt.rcParams.update({"svg.fonttype": "none", "svg.hashsalt": "perpnode", "font.size": 8, "lines.linewidth": 1})
    figure, axes = plt.subplots(len(panels), sharex=True, figsize=(8, 9), layout="constrained")
    for axis, names, title in zip(axes, panels, titles):
        for name in (it for it in names if it in found):
            axis.plot(*zip(*found[name]), label=name, alpha=1 if name == names[0] else 0.6)
        axis.set_title(title, loc="left")
        axis.grid(alpha=0.3)
    axes[0].legend()
    axes[-1].set_xlabel("block")
    figure.savefig(out, format="svg", metadata={"Date": None})


def main():
    words = argparse.ArgumentParser()
    words.add_argument("--program", default="crates/perpnode/out/perpnode")
    words.add_argument("--scenario")
    words.add_argument("--market", type=int, default=MARKET)
    words.add_argument("--account", default="1,0")
    words.add_argument("out", nargs="?", default="docs/chart.svg")
    asked = words.parse_args()
    try:
        import matplotlib.pyplot as plt
    except ImportError:
        return print("skipped, since matplotlib is missing: the chart")
    with open(asked.scenario) if asked.scenario else tempfile.TemporaryFile() as given:
        events = [json.loads(line) for line in given] if asked.scenario else list(own_scenario())
    account = [int(it) for it in asked.account.split(",")]
    found = series(events, run(os.path.abspath(asked.program), events), asked.market, account)
    return draw(plt, found, account, asked.out)


if __name__ == "__main__":
    main()
