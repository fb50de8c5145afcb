#!/usr/bin/env python3
"""Makes netlist files: random well-formed boards, and random damage of them.

usage: damage.py [--seed S] [--count N] [--histogram] [OUTDIR]

File K of seed S is always the same, whatever N is; it is written as OUTDIR/K.net. With --histogram, how the second
reader answers the files is counted and printed.
"""

import argparse
import collections
import os
import random

import second_reader

LETTERS = b"abcdefghijklmnopqrstuvwxyz"
DIGITS = b"0123456789"


# Well-formed boards. A board is a list of lines, a line a list of fields.

def new_name(rng, taken):
    """A name that is not yet taken in its block."""
    while True:
        size = rng.choice([1, 1, 2, 2, 3, 5, 7, 8, 8])
        name = bytes([rng.choice(LETTERS)]) + bytes(rng.choices(LETTERS + DIGITS, k=size - 1))
        if name not in taken:
            taken.add(name)
            return name


def number(rng, low, high):
    return b"%d" % rng.choice([low, high, low + 1, rng.randint(low, high), rng.randint(low, min(high, 12))])


def part(rng):
    """The kind and numbers of a part, and its pins."""
    kind = rng.choice(["gen", "uart", "line"])
    if kind == "gen":
        return [b"gen", number(rng, 1, 65535), number(rng, 0, 255), number(rng, 0, 255)], (1, 1)
    if kind == "uart":
        return [b"uart", number(rng, 1, 65535)], (1, 2)
    return [b"line", number(rng, 0, 65535)], (1, 1)


class Node:
    """A block to be written: its pins, its children in order, and its wires by the place they stand at."""

    def __init__(self, rng, depth, few):
        some_pins = [0, 1, 1, 2, 3, 8] if few == 0 else range(few, 9)
        self.pins = rng.choice(some_pins), rng.choice(some_pins)
        self.depth = depth
        self.children = []  # (name, pins, the fields of a part or the node of a block)
        self.names = set()
        self.wires = []  # (place, from, to)
        self.drawn = set()

    def ends(self, side):
        """The wire ends that a wire may come from (side 1) or lead to (side 0), with the place of their line."""
        yield from ((-1, b"-", pin) for pin in range(self.pins[1 - side]))
        for place, (name, pins, _) in enumerate(self.children):
            yield from ((place, name, pin) for pin in range(pins[side]))

    def lines(self, name):
        yield [b"B", name, b"%d" % self.pins[0], b"%d" % self.pins[1]]
        for place in range(-1, len(self.children)):
            if place >= 0:
                child, _, what = self.children[place]
                if isinstance(what, Node):
                    yield from what.lines(child)
                else:
                    yield [b"P", child] + what
            yield from ([b"W", source, target] for at, source, target in self.wires if at == place)
        yield [b"E"]


def draw(rng, blocks, parts, wires, depth, few=0):
    """A board of so many blocks and parts, at most so deep, and (as far as its pins allow) so many wires."""
    board = Node(rng, 1, few)
    nodes = [board]
    jobs = ["block"] * (blocks - 1) + ["part"] * parts
    chain = min(depth, blocks) - 1  # so many blocks first, each in the last
    rng.shuffle(jobs)
    for job in jobs:
        if job == "block":
            if chain > 0:
                parent = nodes[-1]
                chain -= 1
            else:
                parent = rng.choice([node for node in nodes if node.depth < depth])
            node = Node(rng, parent.depth + 1, few)
            nodes.append(node)
            child = node.pins, node
        else:
            parent = rng.choice(nodes)
            fields, pins = part(rng)
            child = pins, fields
        parent.children.append((new_name(rng, parent.names), *child))
    ends = [(node, list(node.ends(1)), list(node.ends(0))) for node in nodes]
    ends = [(node, sources, targets) for node, sources, targets in ends if sources and targets]
    drawn = 0
    for _ in range(wires * 6 if ends else 0):
        if drawn == wires:
            break
        node, sources, targets = rng.choice(ends)
        source, target = rng.choice(sources), rng.choice(targets)
        wire = b"%s.%d" % source[1:], b"%s.%d" % target[1:]
        if source[1] == target[1] or wire in node.drawn:
            continue
        node.drawn.add(wire)
        node.wires.append((rng.randint(max(source[0], target[0]), len(node.children) - 1), *wire))
        drawn += 1
    return [[b"N", b"%d" % blocks, b"%d" % parts, b"%d" % drawn], *board.lines(new_name(rng, set()))]


def board(rng):
    size = rng.choice(["tiny", "small", "small", "small", "small", "large", "limit"])
    if size == "tiny":
        return draw(rng, rng.randint(1, 2), rng.randint(0, 2), rng.randint(0, 3), 2)
    if size == "small":
        return draw(rng, rng.randint(1, 6), rng.randint(0, 8), rng.randint(0, 20), rng.randint(2, 6), rng.choice([0, 0, 2]))
    if size == "large":
        return draw(rng, rng.randint(1, 32), rng.randint(0, 64), rng.randint(0, 256), rng.randint(2, 8))
    sizes = [rng.randint(2, 9), rng.randint(0, 9), rng.randint(0, 20), rng.randint(2, 7)]
    for at, limit in enumerate([32, 64, 256, 8]):
        if rng.random() < 0.4:
            sizes[at] = limit
    sizes[0] = max(sizes[0], sizes[3])
    return draw(rng, *sizes, few=4 if sizes[2] == 256 else 0)


# Damage of lines: each takes the lines and changes them in place; what does not fit leaves them as they are.

def some(rng, lines, letters=b"NBPWE"):
    """The place of some line with one of these letters, or None."""
    places = [at for at, line in enumerate(lines) if line and len(line[0]) == 1 and line[0] in letters]
    return rng.choice(places) if places else None


def count_again(lines):
    """Line 1 with the counts of the lines that now stand there."""
    if lines:
        lines[0] = [b"N"] + [b"%d" % sum(line[:1] == [letter] for line in lines) for letter in (b"B", b"P", b"W")]


def swap_lines(rng, lines):
    a, b = rng.randrange(len(lines)), rng.randrange(len(lines))
    lines[a], lines[b] = lines[b], lines[a]


def swap_neighbours(rng, lines):
    a = rng.randrange(len(lines) - 1)
    lines[a], lines[a + 1] = lines[a + 1], lines[a]


def move_line(rng, lines):
    lines.insert(rng.randrange(len(lines)), lines.pop(rng.randrange(len(lines))))


def drop_line(rng, lines):
    del lines[rng.randrange(len(lines))]


def double_line(rng, lines):
    at = rng.randrange(len(lines))
    lines.insert(rng.choice([at, rng.randint(at, len(lines))]), list(lines[at]))


def cut_lines(rng, lines):
    del lines[rng.randint(1, len(lines)):]


def change_letter(rng, lines):
    line = rng.choice(lines)
    if line:
        line[0] = rng.choice([b"N", b"B", b"P", b"W", b"E", b"b", b"e", b"BB", b"X", b"-", b"0"])


def add_field(rng, lines):
    line = rng.choice(lines)
    line.insert(rng.randint(1, len(line)), rng.choice([b"0", b"1", b"a", b"a.0", b"gen", b"-.0"]))


def drop_field(rng, lines):
    line = rng.choice(lines)
    if len(line) > 1:
        del line[rng.randrange(1, len(line))]


def swap_fields(rng, lines):
    line = rng.choice(lines)
    a, b = rng.randrange(len(line)), rng.randrange(len(line))
    line[a], line[b] = line[b], line[a]


def change_number(rng, lines):
    at = some(rng, lines, b"NBP")
    if at is not None:
        line = lines[at]
        places = [k for k, field in enumerate(line) if k > 0 and field.isdigit()]
        if places:
            k = rng.choice(places)
            old = line[k]
            line[k] = rng.choice([
                b"0", b"1", b"00", b"01", b"7", b"8", b"9", b"10", b"010", b"255", b"256", b"257", b"65535", b"65536", b"065535",
                b"99999", b"4294967296", b"4294967297", b"18446744073709551616", b"18446744073709551617", b"9" * 70,
                b"-1", b"+1", b"1a", b"0x1", b"1.0", b"0" + old, old + b"0", b"%d" % (int(old) + 1), b"%d" % max(int(old) - 1, 0),
            ])


def limit_number(rng, lines):
    """A number of a block or part at its limit or one past it."""
    at = some(rng, lines, b"BP")
    if at is not None and len(lines[at]) > 3:
        line = lines[at]
        k = rng.randrange(2 if line[0] == b"B" else 3, len(line))
        limit = 8 if line[0] == b"B" else 65535 if k == 3 else 255
        line[k] = rng.choice([b"0", b"00", b"%d" % limit, b"%d" % (limit + 1), b"%d" % (limit + 1)])


def change_kind(rng, lines):
    at = some(rng, lines, b"P")
    if at is not None and len(lines[at]) > 2:
        lines[at][2] = rng.choice([b"gen", b"uart", b"line", b"ge", b"gens", b"Gen", b"uar", b"lines", b"lin", b"nor", b"0"])


def change_name(rng, lines):
    at = some(rng, lines, b"BP")
    if at is not None and len(lines[at]) > 1:
        lines[at][1] = rng.choice([
            b"abcdefgh", b"abcdefghi", b"a2345678", b"a23456789", b"A", b"aB", b"1a", b"0", b"-", b"a-b", b"a.b", b"a_", b"z9", b"{", b"`",
        ])


def change_end(rng, lines):
    at = some(rng, lines, b"W")
    if at is not None and len(lines[at]) == 3:
        k = rng.choice([1, 2])
        owner, _, pin = lines[at][k].partition(b".")
        lines[at][k] = rng.choice([
            b"-." + pin, owner, owner + b".", b"." + pin, owner + b".8", owner + b".7", owner + b".9", owner + b".00", owner + b".01",
            owner + b"." + pin + b"0", owner + b".." + pin, b"--." + pin, owner + b".a", b"abcdefgh.0", b"abcdefghi.0", b"0a.0", b"-", b"-.8",
            owner.upper() + b"." + pin, owner + b".%d" % rng.randrange(8), owner + b":" + pin, owner + b"./",
        ])


def same_name(rng, lines):
    """A child named as another line's block or part."""
    a, b = some(rng, lines, b"BP"), some(rng, lines, b"BP")
    if a is not None and len(lines[a]) > 1 and len(lines[b]) > 1:
        lines[a][1] = lines[b][1]


def sibling_name(rng, lines):
    """A child named as one that stands before it in its block."""
    open_blocks, pairs = [], []
    for at, line in enumerate(lines):
        if line[0] in (b"B", b"P"):
            if open_blocks:
                pairs += [(at, other) for other in open_blocks[-1]]
                open_blocks[-1].append(at)
            if line[0] == b"B":
                open_blocks.append([])
        elif line[0] == b"E" and open_blocks:
            open_blocks.pop()
    if pairs:
        a, b = rng.choice(pairs)
        if len(lines[a]) > 1 and len(lines[b]) > 1:
            lines[a][1] = lines[b][1]


def swap_ends(rng, lines):
    at = some(rng, lines, b"W")
    if at is not None:
        lines[at][1:] = lines[at][:0:-1]


def move_wire_up(rng, lines):
    at = some(rng, lines, b"W")
    if at is not None and at > 2:
        lines.insert(rng.randrange(2, at), lines.pop(at))


def other_end(rng, lines):
    """A wire end taken from another wire."""
    a, b = some(rng, lines, b"W"), some(rng, lines, b"W")
    if a is not None and len(lines[a]) == len(lines[b]) == 3:
        lines[a][rng.choice([1, 2])] = lines[b][rng.choice([1, 2])]


def self_join(rng, lines):
    """A wire after a block's or part's line, or before an E, from a thing to itself."""
    at = some(rng, lines, b"BP")
    if at is None or len(lines[at]) < 4:
        return
    line = lines[at]
    if line[0] == b"P":
        lines.insert(at + 1, [b"W", line[1] + b".0", line[1] + b".0"])
    else:
        if rng.random() < 0.8:
            line[2:4] = rng.choice([(b"1", b"1"), (b"8", b"8"), (b"2", b"3")])
        lines.insert(at + 1, [b"W", b"-.0", b"-.%d" % rng.choice([0, 0, 0, 1])])


def join_wire(rng, lines):
    """A wire whose ends are of one thing."""
    at = some(rng, lines, b"W")
    if at is not None and len(lines[at]) == 3:
        owner = lines[at][1].partition(b".")[0]
        lines[at][2] = owner + b".%d" % rng.choice([0, 0, 0, 1])


def double_wire(rng, lines):
    at = some(rng, lines, b"W")
    if at is not None:
        to = at + 1
        while to < len(lines) and lines[to][0] in (b"P", b"W") and rng.random() < 0.6:
            to += 1
        lines.insert(to, list(lines[at]))


def wrong_count(rng, lines):
    if len(lines[0]) == 4:
        for k in rng.sample([1, 2, 3], rng.choice([1, 1, 2])):
            if lines[0][k].isdigit():
                lines[0][k] = b"%d" % rng.choice([int(lines[0][k]) + 1, max(int(lines[0][k]) - 1, 0), 0, 256, rng.randrange(257)])


def early_end(rng, lines):
    lines.insert(rng.randint(1, len(lines)), [b"E"])


def drop_end(rng, lines):
    del lines[some(rng, lines, b"E") or -1]


def nest(rng, lines):
    """Blocks in blocks, around the limit of depth, before some E or after some B."""
    at = some(rng, lines, b"BE")
    if at is None:
        return
    at += lines[at][0] == b"B"
    more = rng.choice([1, 6, 7, 7, 8, 8, 9])
    lines[at:at] = [[b"B", b"q", b"0", b"0"]] * more + [[b"E"]] * more


def fill(rng, lines):
    """Blocks, parts or wires up to a limit or one past it, before some E or after some B."""
    at = some(rng, lines, b"BE")
    if at is None or lines[at] is lines[0]:
        return
    at += lines[at][0] == b"B"
    letter, limit = rng.choice([(b"B", 32), (b"P", 64), (b"P", 64), (b"W", 256), (b"W", 256), (b"W", 256)])
    missing = limit - sum(line[:1] == [letter] for line in lines) + rng.choice([-1, 0, 0, 1, 1, 1, 2])
    more = []
    if letter == b"W":
        pins = [b"%d" % pin for pin in range(8)]
        for k in range(max(missing, 0)):
            if k % 64 == 0:
                more += [[b"B", b"w%d" % k, b"8", b"0"], [b"E"], [b"B", b"v%d" % k, b"0", b"8"], [b"E"]]
            more.append([b"W", b"v%d." % (k // 64 * 64) + pins[k // 8 % 8], b"w%d." % (k // 64 * 64) + pins[k % 8]])
    for k in range(max(missing, 0)):
        if letter == b"B":
            more += [[b"B", b"w%d" % k, b"1", b"1"], [b"E"]]
        elif letter == b"P":
            more.append([b"P", b"w%d" % k, b"line", b"1"])
    lines[at:at] = more


LINE_DAMAGE = [
    swap_lines, swap_neighbours, move_line, drop_line, double_line, cut_lines, change_letter, add_field, drop_field, swap_fields,
    change_number, change_number, limit_number, limit_number, change_kind, change_name, change_end, change_end, same_name, sibling_name,
    sibling_name, sibling_name, swap_ends, move_wire_up, other_end, self_join, self_join, join_wire, join_wire, double_wire,
    double_wire, double_wire, wrong_count, wrong_count, early_end, drop_end, nest, nest, fill, fill, fill,
]


# Damage of bytes: each takes the bytes and gives others.

def change_byte(rng, data):
    at = rng.randrange(len(data))
    byte = rng.choice([rng.randrange(256), rng.choice(b" .-0189azN\n\r\t!~\x7f\x80\x00/:`{@"), (data[at] ^ 1 << rng.randrange(8))])
    return data[:at] + bytes([byte]) + data[at + 1:]


def insert_byte(rng, data):
    at = rng.randint(0, len(data))
    return data[:at] + bytes([rng.choice([rng.randrange(256), rng.choice(b" .-0189azNE\n\r\t")])]) + data[at:]


def delete_byte(rng, data):
    at = rng.randrange(len(data))
    return data[:at] + data[at + 1:]


def delete_span(rng, data):
    at = rng.randrange(len(data))
    return data[:at] + data[at + rng.randint(1, 40):]


def space(rng, data):
    """One space more: doubled, first in a line, or last in it."""
    places = [at for at, byte in enumerate(data) if byte in b" \n"]
    if not places:
        return data
    at = rng.choice(places) + rng.choice([0, 1])
    return data[:at] + b" " + data[at:]


def empty_line(rng, data):
    places = [at for at, byte in enumerate(data) if byte == 10] + [-1]
    at = rng.choice(places) + 1
    return data[:at] + b"\n" + data[at:]


def carriage_return(rng, data):
    places = [at for at, byte in enumerate(data) if byte == 10]
    if not places:
        return data
    at = rng.choice(places)
    return data[:at] + b"\r" + data[at:]


def long_line(rng, data):
    """A line made 79 to 82 bytes long."""
    lines = data.split(b"\n")
    at = rng.randrange(len(lines))
    missing = rng.choice([79, 80, 80, 81, 81, 82]) - len(lines[at])
    if missing > 0:
        lines[at] += rng.choice([b"0" * missing, b" " + b"1" * (missing - 1), (b" 1" * missing)[:missing], b"x" * missing])
    return b"\n".join(lines)


def no_last_newline(rng, data):
    return data[:-1] if rng.random() < 0.7 else data[:-1] + rng.choice([b" ", b"\r", b"\x00", b"\x0b"])


def more_bytes(rng, data):
    """Bytes after the board's E."""
    return data + rng.choice([
        b"\n", b"E\n", b"x", b" \n", b"N 1 0 0\nB a 0 0\nE\n", b"x" * 81 + b"\n", b"W a.0 a.0\n", data,
        bytes(rng.randrange(256) for _ in range(rng.randint(1, 200))) + b"\n",
    ])


def large_file(rng, data):
    """A file of 32,767 to 32,770 bytes."""
    missing = rng.choice([32767, 32768, 32768, 32769, 32769, 32770]) - len(data)
    if missing <= 0:
        return data
    line = rng.choice([b"\n", b"E\n", b"P a line 1\n", b"x" * 80 + b"\n", b"x"])
    return data + (line * missing)[:missing - 1] + rng.choice([b"\n", b"\n", b"\n", b"x"])


def cut_bytes(rng, data):
    cut = data[:rng.choice([0, 1, rng.randint(0, len(data)), rng.randint(0, len(data))])]
    return cut + rng.choice([b"", b"\n", b"\n"])


BYTE_DAMAGE = [
    change_byte, change_byte, change_byte, insert_byte, insert_byte, delete_byte, delete_byte, delete_span, space, space, empty_line,
    carriage_return, long_line, long_line, no_last_newline, no_last_newline, more_bytes, more_bytes, large_file, large_file, cut_bytes,
]


def netlist(seed, number):
    """The bytes of file `number` of the seed."""
    rng = random.Random(f"{seed}/{number}")
    lines = board(rng)
    how = rng.choice(["intact", "lines", "lines", "lines", "lines", "lines", "bytes", "bytes", "both"])
    if how in ("lines", "both"):
        for _ in range(rng.choice([1, 1, 1, 2, 3])):
            if len(lines) > 2:
                rng.choice(LINE_DAMAGE)(rng, lines)
                lines[:] = [list(line) for line in lines if line]
        if rng.random() < 0.5:
            count_again(lines)
            if rng.random() < 0.2:
                wrong_count(rng, lines)
    data = b"".join(b" ".join(line) + b"\n" for line in lines)
    if how in ("bytes", "both"):
        for _ in range(rng.choice([1, 1, 2])):
            if data:
                data = rng.choice(BYTE_DAMAGE)(rng, data)
    return data


def print_histogram(answers):
    """How often each verdict came, and each verdict with its field."""
    def key(answer):
        words = answer.split()
        return (0, 0) if words[0] == "accepted" else (int(words[1]), int(words[5]))

    fields = collections.Counter(map(key, answers))
    numbers = collections.Counter(number for number, _ in fields.elements())
    for number in sorted(numbers):
        name = f"refused {number}" if number else "accepted"
        by_field = ", ".join(f"field {field}: {count}" for (of, field), count in sorted(fields.items()) if of == number and number)
        print(f"{name:<12}{numbers[number]:>7}   {by_field}".rstrip())


def main():
    parser = argparse.ArgumentParser(description="Makes netlist files, well formed and damaged.")
    parser.add_argument("--seed", type=int, default=1)
    parser.add_argument("--count", type=int, default=100)
    parser.add_argument("--histogram", action="store_true", help="count how the second reader answers the files")
    parser.add_argument("outdir", nargs="?", metavar="OUTDIR")
    options = parser.parse_args()
    if options.outdir is None and not options.histogram:
        parser.error("give OUTDIR, --histogram or both")
    if options.outdir is not None:
        os.makedirs(options.outdir, exist_ok=True)
    answers = []
    for number in range(options.count):
        data = netlist(options.seed, number)
        if options.outdir is not None:
            with open(os.path.join(options.outdir, f"{number}.net"), "wb") as file:
                file.write(data)
        if options.histogram:
            answers.append(second_reader.answer(data))
    print_histogram(answers)


if __name__ == "__main__":
    main()
