#!/usr/bin/env python3
"""Writes a long trace: the lines of another again and again, with packets numbered on.

usage: timeline/tests/long_trace.py COUNT < TRACE"""
import itertools
import re
import sys

PACKET_LINE = re.compile(r"(sent|delivered|lost|repeated|dropped) ([0-9]+)(?: ([0-9]+)$)?")


def moved(line, by):
    """The line with its packets numbered on by so many."""
    match = PACKET_LINE.match(line)
    if not match:
        return line
    word, first, second = match.groups()
    numbers = [first] + ([second] if second and word == "repeated" else [])
    rest = line[len(" ".join([word, *numbers])):]
    return " ".join([word, *(str(int(number) + by) for number in numbers)]) + rest


def long_trace(lines, count):
    """So many lines."""
    most = max((int(match.group(2)) for match in map(PACKET_LINE.match, lines) if match), default=0)
    rounds = (moved(line, by) for by in itertools.count(0, most) for line in lines)
    return itertools.islice(rounds, count)


if __name__ == "__main__":
    for text in long_trace(sys.stdin.read().splitlines(), int(sys.argv[1])):
        print(text)
