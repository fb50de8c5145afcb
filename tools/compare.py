#!/usr/bin/env python3
"""Compares `boardsim check` with the second reader, on files that damage.py makes.

usage: compare.py BOARDSIM [--seed S] [--count N]

It prints how many answers agreed and the first that did not; the exit status is 1 if any differ. A file is made again
by `damage.py` with the same seed.
"""

import argparse
import os
import subprocess
import sys
import tempfile

import damage
import second_reader

SHOWN = 10


def check(boardsim, path):
    """What `boardsim check` prints on standard output, or how it failed to end."""
    try:
        printed = subprocess.run([boardsim, "check", path], stdout=subprocess.PIPE, stderr=subprocess.DEVNULL, timeout=60).stdout
    except subprocess.TimeoutExpired:
        return "no answer in 60 seconds"
    return printed.decode("latin-1").removesuffix("\n")


def main():
    parser = argparse.ArgumentParser(description="Compares `boardsim check` with the second reader.")
    parser.add_argument("boardsim", metavar="BOARDSIM")
    parser.add_argument("--seed", type=int, default=1)
    parser.add_argument("--count", type=int, default=10000)
    options = parser.parse_args()
    answers, different = [], 0
    with tempfile.TemporaryDirectory() as folder:
        for number in range(options.count):
            data = damage.netlist(options.seed, number)
            path = os.path.join(folder, f"{number}.net")
            with open(path, "wb") as file:
                file.write(data)
            expected, printed = second_reader.answer(data), check(options.boardsim, path)
            os.remove(path)
            answers.append(expected)
            if printed != expected:
                different += 1
                if different <= SHOWN:
                    print(f"{number}.net: second reader `{expected}`, boardsim `{printed}`")
    damage.print_histogram(answers)
    print(f"seed {options.seed}: {options.count - different} of {options.count} agreed")
    sys.exit(1 if different else 0)


if __name__ == "__main__":
    main()
