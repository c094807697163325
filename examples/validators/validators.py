#!/usr/bin/env python3
"""Runs validators whose blocks an engine orders: each is one `perpnode` process in a folder of its own, and the log
of blocks is etcd. README.md beside this file says how; docs/DEPLOYING.md what each of them has to promise."""
import argparse
import contextlib
import json
import queue
import random
import signal
import sqlite3
import subprocess
import sys
import threading
import time
from collections import Counter, OrderedDict
from pathlib import Path

from blockbytes import Malformed, block_of, bytes_of
from clients import Clients
from cluster import Cluster
from engine import Engine, Stop

HERE = Path(__file__).resolve().parent
PROGRAM = HERE.parent.parent / "crates" / "perpnode" / "out" / "perpnode"
VALIDATORS = 4
# A validator that was killed starts again after so many seconds.
PAUSE = 0.5
# A message that was handed in or stands in a block is not pooled again while it is among the last so many.
MOST_SEEN = 100_000
# A validator that starts looks into so many blocks of the log for messages that it must not pool again.
BLOCKS_SEEN = 16
STATUSES = {
    3: "the rows of its database are no chain of this genesis",
    67: "its database cannot be opened or written, or another process has it open",
    71: "memory was refused",
}


class Killed(Stop):
    """A perpnode process was ended by a signal."""


class Node:
    """A perpnode process over a folder: it is given a line, and gives a reply."""

    def __init__(self, program, folder, genesis):
        self.spent, self.line = 0.0, 0
        try:
            folder.mkdir(parents=True, exist_ok=True)
            pipes = {"stdin": subprocess.PIPE, "stdout": subprocess.PIPE}
            self.process = subprocess.Popen([program], cwd=folder, **pipes)
        except OSError as error:
            raise Stop(f"perpnode does not start: {error}") from error
        self.height, self.spent = int(self.ask(*genesis)[0]), 0.0

    def ask(self, word, *elements):
        """The parts of the answer to a line."""
        begun = time.monotonic()
        self.line += 1
        reply = b""
        with contextlib.suppress(OSError, ValueError):
            self.process.stdin.write(json.dumps([word, *elements], separators=(",", ":")).encode() + b"\n")
            self.process.stdin.flush()
            reply = self.process.stdout.readline()
        number, _, told = reply.decode().partition(" ")
        if number != str(self.line) or not told.endswith("\n"):
            raise self.ended(reply.decode().strip())
        self.spent += time.monotonic() - begun
        return told.split()[1:]

    def ended(self, told):
        """Why the process has ended, of which only this was read."""
        self.close()
        status = self.process.returncode
        cause = f"perpnode ended with status {status}: {told or STATUSES.get(status, 'without a word')}"
        return Killed(cause) if status < 0 else Stop(cause)

    def close(self):
        """Ends the input of the process, and waits for its end."""
        with contextlib.suppress(OSError):
            self.process.stdin.close()
        self.process.stdout.close()
        self.process.wait()


LAST_ROW = "SELECT height, body FROM block WHERE node = 0 AND height > 0 ORDER BY height DESC LIMIT 1"


def last_row(folder):
    """The height and the bytes of the last block that a folder's database keeps; nothing where there is none."""
    base = folder / "perpnode.db"
    if not base.exists():
        return None
    try:
        with contextlib.closing(sqlite3.connect(base, timeout=0.5)) as opened:
            if opened.execute("SELECT 1 FROM sqlite_master WHERE name = 'block'").fetchone():
                return opened.execute(LAST_ROW).fetchone()
            return None
    except sqlite3.Error as error:
        raise Stop(f"{base} cannot be read: {error}") from error


class Validator(threading.Thread):
    """One validator: it follows the log, and where it has a number it proposes when its turn comes."""

    def __init__(self, number, folder, network, options, goal):
        super().__init__(daemon=True, name="follower" if number is None else f"validator {number}")
        self.number, self.folder, self.network, self.options, self.goal = number, folder, network, options, goal
        self.engine, self.inbox, self.seen = Engine(options.engine, options.patience), queue.Queue(), OrderedDict()
        self.node, self.time, self.height, self.due, self.fresh = None, 0, 0, float("inf"), 0
        self.digests, self.audit, self.cause, self.is_killed, self.ended = {}, None, None, False, None
        self.told, self.sent, self.spent_in_engine, self.spent_in_node = Counter(), {}, [], 0.0

    def run(self):
        """Lives until its goal or a cause to stop."""
        try:
            self.begin()
            while self.goal is None or self.height < self.goal:
                self.step()
            self.audit = self.node.ask("audit", 0)
        except Stop as cause:
            self.cause, self.is_killed = str(cause), isinstance(cause, Killed)
        self.end_node()

    def begin(self):
        """Starts from the database of its folder, and asks for the log from there on."""
        options = self.options
        genesis, (held, _) = json.dumps(options.genesis).encode(), self.engine.get("genesis")
        if held != genesis and (held or self.number is None):
            raise Stop("the log has no genesis yet, or another one")
        height, body = last_row(self.folder) or (0, None)
        if body != (self.engine.get(f"block/{height}")[0] if height else None):
            raise Stop(f"block/{height} of the log is not the last block of {self.folder}: it is another log")
        self.node = Node(options.program, self.folder, options.genesis)
        if not held and not self.engine.put_first("genesis", genesis) and self.engine.get("genesis")[0] != genesis:
            raise Stop("the log has got another genesis")
        self.height, self.time = self.node.height, options.genesis[2]
        self.keep_digest()
        revision = self.engine.get(f"block/{max(1, height - BLOCKS_SEEN)}")[1]
        self.wait_turn()
        print(f"{self.name}: process {self.node.process.pid}, from height {self.height}", flush=True)
        threading.Thread(target=self.watch, args=[self.node, max(1, revision)], daemon=True).start()

    def watch(self, node, revision):
        """Hands each block of the log from a revision on to this validator, while it has this node."""
        try:
            for key, body in Engine(self.options.engine, self.options.patience).changes("block/", revision):
                if self.node is not node:
                    return
                self.inbox.put((self.take_block, key, body))
        except Stop as cause:
            self.inbox.put((self.stop, cause))

    @staticmethod
    def stop(cause):
        raise cause

    def end_node(self):
        if self.node:
            self.node.close()
            self.spent_in_node += self.node.spent
        self.node, self.ended = None, time.monotonic()

    def wait_turn(self):
        """Sets when this validator proposes the next block: at once in its turn, and later by each turn before it."""
        if self.number is not None:
            turn = (self.number - self.height - 1) % VALIDATORS
            self.due, self.fresh = time.monotonic() + self.options.pace + turn * self.options.late, 0

    def step(self):
        """Does what is next: a proposal that is due, or what was handed in."""
        if self.node.line >= self.options.lines:
            self.end_node()
            self.begin()
        wait = self.due - time.monotonic()
        if wait <= 0:
            return self.propose()
        with contextlib.suppress(queue.Empty):
            call, *parts = self.inbox.get(timeout=min(wait, 1))
            call(*parts)

    def from_client(self, event):
        """Takes an event of a client, and lets the other validators know."""
        for peer in self.network:
            if peer is not self:
                peer.inbox.put((peer.take, event))
        self.take(event)

    def take(self, event):
        """Gives an event to the node: an order to its book, a message to its pool."""
        word, *elements = event
        if word == "message" and not self.is_new(elements[0]):
            return
        self.told[" ".join([word, *self.node.ask(word, 0, *elements)[:1]])] += 1
        self.fresh += 1
        if self.fresh >= self.options.full and self.number == (self.height + 1) % VALIDATORS:
            self.due = 0

    def is_new(self, message):
        """Whether a message was neither handed in nor in a block before; it is no more."""
        is_new = str(message) not in self.seen
        self.seen[str(message)] = None
        if len(self.seen) > MOST_SEEN:
            self.seen.popitem(last=False)
        return is_new

    def propose(self):
        """Makes the next block and puts it into the log, where another one may be first. It is taken from there."""
        self.due = time.monotonic() + max(1, VALIDATORS * self.options.late)
        moment = self.time + self.options.step if self.options.step else max(int(time.time()), self.time + 1)
        if self.node.ask("propose", 0, 1, moment)[0] != "block":
            return
        body = bytes.fromhex(self.node.ask("show", 1)[0])
        if bytes_of(block_of(body)) != body:
            raise Stop(f"the node's block is not read and written as docs/FORMAT.md has it: {body.hex()}")
        self.sent[self.height + 1] = time.monotonic()
        self.engine.put_first(f"block/{self.height + 1}", body)

    def take_block(self, key, body):
        """Commits a block of the log, if it is the next one and the node finds it good."""
        height = key.partition("/")[2]
        try:
            block = block_of(body)
        except Malformed as error:
            raise Stop(f"{key} of the log is no block: {error}") from error
        if str(block[0]) != height:
            raise Stop(f"{key} of the log is a block of another height, {block[0]}")
        if block[0] > self.height + 1:
            raise Stop(f"the log has {key} where block/{self.height + 1} is next")
        for message in block[3]:
            self.is_new(message)
        if block[0] == self.height + 1:
            if block[0] in self.sent:
                self.spent_in_engine.append(time.monotonic() - self.sent.pop(block[0]))
            self.commit(block)
        if block[0] == self.height:
            self.time = block[1]

    def commit(self, block):
        """Asks the node for its word on a block, and commits it."""
        self.node.ask("block", 0, *block)
        for word, good in (("check", ["good"]), ("commit", ["good", str(block[0])])):
            answer = self.node.ask(word, 0, 0)
            if answer[: len(good)] != good:
                raise Stop(f"block/{block[0]} is refused, and stays in the log: {word} {' '.join(answer)}")
        self.height, self.time = block[0], block[1]
        self.keep_digest()
        self.wait_turn()

    def keep_digest(self):
        """Keeps the digest at each tenth height."""
        if self.height and self.height % 10 == 0:
            self.digests[self.height] = self.node.ask("digest", 0)[1]
            if self.number is None:
                print(f"height {self.height}: digest {self.digests[self.height]}", flush=True)


class Run:
    """Four validators, and what clients hand in to them. Who is killed starts again."""

    def __init__(self, options, cluster):
        self.options, self.cluster, self.random = options, cluster, random.Random(options.seed)
        self.begun = Engine(options.engine, options.patience).count("block/")
        self.goal, self.handed, self.orders = self.begun + options.blocks, self.begun, 0
        self.clients, self.network, self.causes = Clients(options.seed + self.begun, options.genesis), [], {}
        self.digests, self.told, self.spent_in_engine, self.spent_in_node, self.clock = {}, Counter(), [], 0.0, None
        self.network += [self.validator(number) for number in range(VALIDATORS)]

    def validator(self, number):
        return Validator(number, self.options.folder / f"validator{number}", self.network, self.options, self.goal)

    def whole(self):
        """Runs to the goal; the status of what it came to."""
        for validator in self.network:
            validator.start()
        while any(it.is_alive() or it.is_killed for it in self.network):
            self.hand_out(max(it.height for it in self.network))
            for number, validator in enumerate(self.network):
                if validator.is_killed and not validator.is_alive():
                    self.start_again(number, validator)
            if self.cluster:
                self.cluster.start_killed()
            self.tell()
            time.sleep(0.002)
        self.tell()
        for validator in self.network:
            self.gather(validator)
        return self.came_to()

    def hand_out(self, height):
        """Hands the clients' events for the next block to one validator each, once the last block is there."""
        if self.handed > height or self.handed >= self.goal or not any(it.node for it in self.network):
            return
        self.clock = self.clock or time.monotonic()
        self.handed, living = height + 1, [it for it in self.network if it.is_alive()]
        done = self.handed - self.begun
        count = self.options.orders * done // self.options.blocks - self.orders
        self.orders += count
        events = [*self.clients.orders(self.handed, count), *self.clients.others(self.handed)]
        for event in self.clients.opening(self.handed) * (done == 1) + events:
            home = self.random.choice(living or self.network)
            home.inbox.put((home.from_client, event))
        for event in self.clients.daemons(self.handed):
            for validator in self.network:
                validator.inbox.put((validator.take, event))

    def start_again(self, number, old):
        """Starts a killed validator again over its folder, when the others have gone on for a while."""
        if time.monotonic() > old.ended + PAUSE:
            print(f"validator {number}: killed at height {old.height}", flush=True)
            self.gather(old)
            self.network[number] = self.validator(number)
            self.network[number].start()

    def gather(self, validator):
        """Takes over what a validator has counted, when it is at its end."""
        self.told += validator.told
        self.spent_in_engine += validator.spent_in_engine
        self.spent_in_node += validator.spent_in_node

    def tell(self):
        """Writes each tenth height that all validators have passed, and each cause of an end."""
        for number, validator in enumerate(self.network):
            for height, digest in list(validator.digests.items()):
                found = self.digests.setdefault(height, {})
                is_last = number not in found and len(found) == VALIDATORS - 1
                found[number] = digest
                if is_last:
                    same = "four equal digests" if len(set(found.values())) == 1 else f"UNEQUAL digests {found}"
                    print(f"height {height}: {same}, {digest[:16]}..", flush=True)
            if validator.cause and not validator.is_killed and number not in self.causes:
                self.causes[number] = validator.cause
                print(f"validator {number}: {validator.cause}", file=sys.stderr, flush=True)

    def came_to(self):
        """Writes what the run came to, and gives its status."""
        blocks = min(it.height for it in self.network) - self.begun
        if blocks > 0:
            seconds = time.monotonic() - self.clock
            engine = 1_000 * sum(self.spent_in_engine) / max(1, len(self.spent_in_engine))
            parts = f"{engine:.0f} in the engine and {1_000 * self.spent_in_node / VALIDATORS / blocks:.0f} in perpnode"
            print(f"answers: {', '.join(f'{count} {word}' for word, count in sorted(self.told.items()))}")
            pace = f"{blocks} blocks, {self.orders} orders, {seconds:.1f} s: {blocks / seconds:.1f} blocks a second"
            print(f"{pace}; of a block's {1_000 * seconds / blocks:.0f} ms {parts}")
        unequal = [it for it, found in self.digests.items() if len(found) < VALIDATORS or len({*found.values()}) > 1]
        audits = {" ".join(it.audit or ["none"]) for it in self.network}
        if self.causes or unequal or len(audits) > 1:
            cause = f"stopped are validators {sorted(self.causes)}, digests differ at {unequal}, audits are {audits}"
            print(f"no agreement: {cause}", file=sys.stderr)
            return 1
        print(f"{len(self.digests)} times four equal digests, and four equal audits:\naudit {audits.pop()}")
        return 0


def run(options):
    """Four validators; over three members of an engine that are started here, where no other one is named."""
    if options.engine:
        return Run(options, None).whole()
    with Cluster(options.folder / "etcd", options.port) as cluster:
        options.engine = cluster.urls
        return Run(options, cluster).whole()


def follow(options):
    """One validator that proposes nothing, as an auditor's."""
    validator = Validator(None, options.folder, [], options, options.until)
    validator.run()
    if validator.cause:
        raise Stop(validator.cause)
    print(f"height {validator.height}\naudit {' '.join(validator.audit)}")
    return 0


# The words behind `run` and `follow`: of which of the two, the default, and what they say.
OPTIONS = [
    ("both", "--program", PROGRAM, "the built perpnode"),
    ("both", "--genesis", HERE / "genesis.jsonl", "a scenario, of which the first line is read"),
    ("both", "--patience", 10.0, "seconds to wait for the engine"),
    ("both", "--lines", 900_000, "lines that a process is given before another one, of 1,000,000 that it reads"),
    ("run", "--folder", Path("validators"), "where all is kept"),
    ("run", "--blocks", 50, "how many more blocks"),
    ("run", "--orders", 750, "how many orders in all of them"),
    ("run", "--seed", 1, "of the orders"),
    ("run", "--pace", 0.25, "seconds that a proposer waits for orders"),
    ("run", "--full", 15, "orders for which it waits no longer"),
    ("run", "--late", 0.5, "seconds until the next one proposes"),
    ("run", "--step", 0, "seconds from block to block, where it is not the clock that says"),
    ("run", "--port", 23_790, "first of six ports for an etcd"),
    ("follow", "--folder", Path("validators/follower"), "where all is kept"),
    ("follow", "--until", 4_000_000_000, "the height at which to end"),
]


def options_of(words):
    """What the words ask for."""
    reader = argparse.ArgumentParser(description=__doc__)
    deeds = reader.add_subparsers(dest="deed", required=True)
    for deed, meaning in (("run", run.__doc__), ("follow", follow.__doc__)):
        named = deeds.add_parser(deed, help=meaning, description=meaning)
        named.add_argument("--engine", type=lambda it: it.split(","), metavar="URL,..", required=deed == "follow")
        for _, name, default, told in (it for it in OPTIONS if it[0] in ("both", deed)):
            named.add_argument(name, default=default, type=type(default), help=f"{told} (%(default)s)")
    options = reader.parse_args(words)
    options.program = options.program.resolve()
    if not options.program.exists():
        raise Stop(f"there is no {options.program}: .ci/run builds it, and --program names another one")
    try:
        word, _, *numbers = json.loads(options.genesis.read_text().partition("\n")[0])
        if word != "genesis" or not isinstance(numbers[4], list):
            raise ValueError(f"it begins with {word!r}")
    except (ValueError, LookupError, TypeError) as error:
        raise Stop(f"{options.genesis} does not begin with a genesis line: {error}") from error
    options.genesis = [word, 1, *numbers]
    return options


def main():
    signal.signal(signal.SIGTERM, lambda *_: sys.exit(1))
    try:
        options = options_of(sys.argv[1:])
        return run(options) if options.deed == "run" else follow(options)
    except (Stop, OSError, ValueError, LookupError, TypeError) as cause:
        print(cause, file=sys.stderr)
        return 1
    except KeyboardInterrupt:
        return 130


if __name__ == "__main__":
    sys.exit(main())
