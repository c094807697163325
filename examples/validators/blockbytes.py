#!/usr/bin/env python3
"""Reads and writes the bytes of a block, by the rules of docs/FORMAT.md ("Bytes") and by nothing else.

    blockbytes.py HEX          # the block that the bytes are, as the elements of a `block` line behind the slot
    blockbytes.py --self-test  # on the blocks of docs/FORMAT.md and of examples/

A block is a list here, as a `block` line has it: height, time, operations, messages, votes and prices.
"""
import json
import re
import sys
from pathlib import Path

# A part is a number of 1 to 8 bytes (negative where the number is signed), a byte out of a range, a tuple of parts,
# a list of members of one kind, or one of several forms by its first byte.
SIDE, KIND = range(2), range(4)
ACCOUNT = (4, 4)
ID = (*ACCOUNT, 4, 4, 4)
ORDER = (*ID, SIDE, 8, 8, 4, KIND)
FILLS, OFFSETS = [(ID, 8)], [(ACCOUNT, 8)]
OPERATION = {1: (ORDER,), 2: (ID, FILLS), 3: (ACCOUNT, 4, FILLS), 4: (ACCOUNT, 4, OFFSETS), 5: (ID,)}
DEPOSIT, TRANSFER = (ACCOUNT, 8), (ACCOUNT, ACCOUNT, 8)
MESSAGE = {1: DEPOSIT, 2: DEPOSIT, 3: TRANSFER, 4: (ORDER,), 5: (ID,), 6: (ORDER, SIDE, 8)}
VOTE, PRICE = (4, -4), (4, 8)
BLOCK = (4, 4, [OPERATION], [MESSAGE], [VOTE], [PRICE])


class Malformed(ValueError):
    """Bytes that are no block's, or a list that is no block."""


def form_of(block):
    """2 where the block has an order of kind 3 or a message 6, else 1."""
    orders = [it[1] for it in block[2] if it[0] == 1] + [it[1] for it in block[3] if it[0] in (4, 6)]
    return 2 if any(it[-1] == 3 for it in orders) or any(it[0] == 6 for it in block[3]) else 1


def taken(body, at, part):
    """The part that stands at a place of some bytes, and the place behind it."""
    if isinstance(part, int):
        if at + abs(part) > len(body):
            raise Malformed(f"the bytes break off at {len(body)}")
        return int.from_bytes(body[at : at + abs(part)], "big", signed=part < 0), at + abs(part)
    if isinstance(part, range):
        number, behind = taken(body, at, 1)
        if number not in part:
            raise Malformed(f"byte {at} is {number}, and not below {len(part)}")
        return number, behind
    if isinstance(part, dict):
        number, at = taken(body, at, 1)
        if number not in part:
            raise Malformed(f"byte {at - 1} is {number}, which is no operation and no message")
        members, at = taken(body, at, part[number])
        return [number, *members], at
    count, at = taken(body, at, 4) if isinstance(part, list) else (1, at)
    members = []
    for _ in range(count):
        for member in part:
            value, at = taken(body, at, member)
            members.append(value)
    return members, at


def block_of(body):
    """The block that has these bytes."""
    form, at = taken(body, 0, range(3))
    block, at = taken(body, at, BLOCK)
    if at != len(body):
        raise Malformed(f"the block ends at byte {at}, and {len(body) - at} more follow")
    if form != form_of(block):
        raise Malformed(f"the form is {form}, and not {form_of(block)}")
    return block


def spelled(value, part):
    """The bytes of a part."""
    if isinstance(part, int):
        return value.to_bytes(abs(part), "big", signed=part < 0)
    if isinstance(part, range):
        return bytes([part.index(value)])
    if isinstance(part, dict):
        return bytes([value[0]]) + spelled(value[1:], part[value[0]])
    if isinstance(part, list):
        return len(value).to_bytes(4, "big") + b"".join(spelled(it, part[0]) for it in value)
    if len(value) != len(part):
        raise IndexError(f"{len(value)} elements, and not {len(part)}")
    return b"".join(map(spelled, value, part))


def bytes_of(block):
    """The bytes of a block."""
    try:
        return bytes([form_of(block)]) + spelled(block, BLOCK)
    except (AttributeError, LookupError, OverflowError, TypeError, ValueError) as error:
        raise Malformed(f"this is no block: {error}") from error


def is_refused(body):
    """Whether some bytes are no block's."""
    try:
        block_of(body)
    except Malformed:
        return True
    return False


def table_block(document):
    """The bytes of the block that the document spells in a table."""
    rows = re.findall(r"^\| `([0-9a-f]{2}(?: [0-9a-f]{2})*)` \| ", document, re.MULTILINE)
    return bytes.fromhex(" ".join(rows))


def shown_blocks(examples):
    """The blocks that the examples hand in, each with the bytes that a `show` of its slot answers, if one does."""
    for scenario in sorted(examples.glob("*.jsonl")):
        replies = scenario.with_suffix(".replies").read_text().splitlines()
        slots, handed_in = {}, []
        for line, reply in zip(map(json.loads, scenario.read_text().splitlines()), replies):
            if line[0] == "block":
                slots[line[1]] = [line[2:], None]
                handed_in.append(slots[line[1]])
            if line[0] == "show" and line[1] in slots:
                slots[line[1]][1] = bytes.fromhex(reply.split()[2])
        yield from handed_in


def self_test():
    """Tries the document's block and the blocks of the examples: read, written, shown, cut, and made longer."""
    top = Path(__file__).resolve().parent.parent.parent
    body = table_block((top / "docs" / "FORMAT.md").read_text())
    assert block_of(body) == [1, 1, [], [[1, [1, 0], 10_000_000_000]], [], []], body.hex()
    found = [(block_of(body), body), *shown_blocks(top / "examples")]
    # Every kind of part, each number at the ends of its range.
    low, high = [0] * 5, [2**32 - 1] * 5
    orders = [[*low, 0, 0, 0, 0, 0], [*high, 1, 2**64 - 1, 2**64 - 1, 2**32 - 1, 2]]
    fills, offsets = [[low, 0], [high, 2**64 - 1]], [[[0, 1], 5], [[2**32 - 1, 0], 2**64 - 1]]
    closed = [[3, [7, 8], 9, fills], [4, [7, 8], 9, offsets]]
    operations = [[1, orders[0]], [1, orders[1]], [2, low, fills], *closed, [5, high]]
    messages = [[1, [1, 2], 3], [2, [1, 2], 3], [3, [1, 2], [3, 4], 5], [4, orders[1]], [5, low]]
    whole = [2**32 - 1, 0, operations, messages, [[0, -(2**31)], [1, 2**31 - 1]], [[0, 2**64 - 1]]]
    reducing = [*low, 1, 1, 1, 1, 3]
    found += [(whole, None), ([1, 1, [[1, reducing]], [], [], []], None), ([1, 1, [], [[4, reducing]], [], []], None)]
    found += [([1, 1, [], [[6, orders[0], 1, 2**64 - 1]], [], []], None)]
    for block, shown in found:
        written = bytes_of(block)
        assert block_of(written) == block, block
        assert shown is None or shown == written, (block, shown.hex(), written.hex())
        assert all(is_refused(written[:end]) for end in range(len(written))), block
        assert is_refused(written + b"\0") and is_refused(bytes([3 - written[0]]) + written[1:]), block
    bad_parts = [[1, 1, [[6, low]], [], [], []], [1, 1, 5, [], [], []], [1, 1, [], [[6, orders[0], -1, 1]], [], []]]
    for bad in ([], [1, 1, [], [], []], [2**32, 1, [], [], [], []], *bad_parts):
        try:
            raise AssertionError(bytes_of(bad))
        except Malformed:
            pass
    shows = sum(shown is not None for _, shown in found)
    print(f"{len(found)} blocks are read as they were written, {shows} of them as the document or a reply has them")


def main():
    if sys.argv[1:] == ["--self-test"]:
        return self_test()
    if len(sys.argv) != 2:
        sys.exit(__doc__.strip())
    try:
        return print(json.dumps(block_of(bytes.fromhex(sys.argv[1])), separators=(",", ":")))
    except ValueError as error:
        sys.exit(f"no block: {error}")


if __name__ == "__main__":
    main()
