#!/usr/bin/env python3
"""A second reader of netlist files, written from docs/netlist.md and not from the crates.

usage: second_reader.py FILE

It prints the line that `boardsim check FILE` prints on standard output.
"""

import re
import sys

MAX_BYTES = 32768
MAX_LINE = 80
MAX_BLOCKS = 32
MAX_PARTS = 64
MAX_WIRES = 256
MAX_DEPTH = 8

TEXT = re.compile(rb"[!-~]+(?: [!-~]+)*")
NAME = re.compile(rb"[a-z][a-z0-9]{0,7}")
NUMBER = re.compile(rb"0|[1-9][0-9]*")
WIRE_END = re.compile(rb"(-|[a-z][a-z0-9]{0,7})\.([0-7])")

LAYERS = {1: "text", 2: "text", 3: "line", 4: "line", 10: "board"}  # the others: block


class Refused(Exception):
    """The first question whose answer is no."""

    def __init__(self, question, line, field=0):
        super().__init__(question, line, field)
        self.question, self.line, self.field = question, line, field

    def __str__(self):
        layer = LAYERS.get(self.question, "block")
        return f"refused {self.question} line {self.line} field {self.field} {layer}"


def number(low, high):
    return lambda field: NUMBER.fullmatch(field) is not None and low <= int(field) <= high


def name(field):
    return NAME.fullmatch(field) is not None


def wire_end(field):
    return WIRE_END.fullmatch(field) is not None


# What the fields after the letter must be.
FORMS = {
    b"N": [number(0, 256), number(0, 256), number(0, 256)],
    b"B": [name, number(0, 8), number(0, 8)],
    b"W": [wire_end, wire_end],
    b"E": [],
}

# Input pins, output pins, and what the numbers must be.
KINDS = {
    b"gen": (1, 1, [number(1, 65535), number(0, 255), number(0, 255)]),
    b"uart": (1, 2, [number(1, 65535)]),
    b"line": (1, 1, [number(0, 65535)]),
}


class Block:
    def __init__(self, ins, outs):
        self.ins, self.outs = ins, outs
        self.children = {}  # the pins (ins, outs) by name
        self.wires = set()

    def has(self, end, source):
        """Whether a wire may start (source) or stop (not source) at this end."""
        owner, pin = WIRE_END.fullmatch(end).groups()
        if owner == b"-":
            pins = self.ins if source else self.outs
        else:
            ins, outs = self.children.get(owner, (0, 0))
            pins = outs if source else ins
        return int(pin) < pins


def fields_of(text, line, letters):
    """Questions 2 to 4: the fields of a line that starts with one of the letters."""
    if len(text) > MAX_LINE or TEXT.fullmatch(text) is None:
        raise Refused(2, line)
    fields = text.split(b" ")
    letter = fields[0]
    if letter not in letters:
        raise Refused(3, line, 1)
    if letter == b"P":
        if len(fields) < 3:
            raise Refused(3, line)
        if fields[2] not in KINDS:
            raise Refused(4, line, 3)
        numbers = KINDS[fields[2]][2]
        if len(fields) - 3 != len(numbers):
            raise Refused(4, line)
        form = [name, lambda _: True] + numbers
    else:
        form = FORMS[letter]
        if len(fields) - 1 != len(form):
            raise Refused(3, line)
    for at, (good, field) in enumerate(zip(form, fields[1:]), start=2):
        if not good(field):
            raise Refused(4, line, at)
    return fields


def read_board(data):
    """The counts of blocks, parts and wires, and the bytes taken."""
    if not 1 <= len(data) <= MAX_BYTES or data[-1] != 10:
        raise Refused(1, 0)
    texts = data[:-1].split(b"\n")
    header = fields_of(texts[0], 1, [b"N"])
    taken = len(texts[0]) + 1
    blocks = parts = wires = 0
    stack = []  # the open blocks, the board first
    for line, text in enumerate(texts[1:], start=2):
        fields = fields_of(text, line, [b"B", b"P", b"W", b"E"] if stack else [b"B"])
        taken += len(text) + 1
        letter = fields[0]
        if letter in (b"B", b"P") and stack and fields[1] in stack[-1].children:
            raise Refused(5, line, 2)
        if letter == b"B":
            if blocks == MAX_BLOCKS or len(stack) == MAX_DEPTH:
                raise Refused(6, line)
            blocks += 1
            pins = int(fields[2]), int(fields[3])
            if stack:
                stack[-1].children[fields[1]] = pins
            stack.append(Block(*pins))
        elif letter == b"P":
            if parts == MAX_PARTS:
                raise Refused(6, line)
            parts += 1
            stack[-1].children[fields[1]] = KINDS[fields[2]][:2]
        elif letter == b"W":
            if wires == MAX_WIRES:
                raise Refused(6, line)
            block, source, target = stack[-1], fields[1], fields[2]
            if not block.has(source, source=True):
                raise Refused(7, line, 2)
            if not block.has(target, source=False):
                raise Refused(7, line, 3)
            if source.split(b".")[0] == target.split(b".")[0]:
                raise Refused(8, line)
            if (source, target) in block.wires:
                raise Refused(9, line)
            wires += 1
            block.wires.add((source, target))
        else:
            stack.pop()
            if not stack:
                break
    else:
        raise Refused(3, len(texts) + 1)
    counts = blocks, parts, wires
    for field, (said, count) in enumerate(zip(header[1:], counts), start=2):
        if int(said) != count:
            raise Refused(10, 1, field)
    return (*counts, taken)


def answer(data):
    """The line that answers a file's bytes."""
    try:
        return "accepted {} {} {} {}".format(*read_board(data))
    except Refused as refused:
        return str(refused)


def main():
    if len(sys.argv) != 2:
        sys.exit("usage: second_reader.py FILE")
    with open(sys.argv[1], "rb") as file:
        print(answer(file.read()))


if __name__ == "__main__":
    main()
