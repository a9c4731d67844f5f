#!/usr/bin/env python3
"""Writes each line of its input once or twice, out of order.

    unruly.py SEED

A line moves by at most some hundred places. `feed.py --through` uses it to try what a log might do to records.
"""
import random
import sys

ROOM = 100


def main():
    chance = random.Random(sys.argv[1])
    held = []
    for line in sys.stdin.buffer:
        held += [line] * chance.choice((1, 2))
        while len(held) > ROOM:
            sys.stdout.buffer.write(held.pop(chance.randrange(len(held))))
    chance.shuffle(held)
    sys.stdout.buffer.writelines(held)


if __name__ == "__main__":
    main()
