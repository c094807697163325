#!/usr/bin/env python3
"""Drives perpnode through a pipe: each event is sent after the reply to the one before it has been read.

    examples/drive.py [PROGRAM]

It needs Python's standard library alone. docs/EMBEDDING.md explains it; examples/drive.told has what it prints."""
import json
import os
import sys
import tempfile
from subprocess import PIPE, Popen

PROGRAM = os.path.abspath(sys.argv[1] if len(sys.argv) > 1 else "crates/perpnode/out/perpnode")
MARKET = [-7, -9, 1_000_000, 1_000_000, -8, 15_000_000_000, 50_000, 600_000, 10_000_000_000, 120_000]  # SOL-USD
SELLER, BUYER = [2, 0], [1, 0]


def ask(node, *event):
    """Sends one event, prints its reply, and answers the words behind the line's number and the event word."""
    node.stdin.write(json.dumps(event) + "\n")
    node.stdin.flush()
    reply = node.stdout.readline()
    if not reply or reply.startswith("fault"):
        sys.exit(f"perpnode ended with status {node.wait()}: {reply.strip()}")
    print(reply, end="")
    return reply.split()[2:]


with tempfile.TemporaryDirectory() as folder, Popen([PROGRAM], stdin=PIPE, stdout=PIPE, cwd=folder, text=True) as node:
    ask(node, "genesis", 1, 1_700_000_000, 0, 1, [500, 200, 5_000, 1_500_000, 1_000_000], [MARKET])
    for who in (SELLER, BUYER):
        ask(node, "message", 0, [1, who, 10_000_000_000])  # a deposit of 10,000 USD
    ask(node, "propose", 0, 1, 1_700_000_001)
    _, height, *_ = ask(node, "commit", 0, 1)
    until = int(height) + 1 + 20  # the next height, and the most that an order may last
    ask(node, "place", 0, [*SELLER, 1, 0, 0, 0, 600_000_000, 15_000_000_000, until, 0])
    _, _, subticks, left = map(int, ask(node, "best", 0, 0))
    ask(node, "place", 0, [*BUYER, 1, 0, 0, 1, left // 2, subticks, until, 1])  # half of the best ask, as the reply has it
    ask(node, "propose", 0, 2, 1_700_000_002)
    ask(node, "commit", 0, 2)
    ask(node, "balance", 0, BUYER)
    node.stdin.close()
    print("status", node.wait())
