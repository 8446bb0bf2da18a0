#!/usr/bin/env python3
"""Prints what the program `checklist` must print for its sample: its file `stdout`.

The answers come from document 01's rules, as tools/rules.py has them. The form of the lines comes from the README.

  python3 tools/expected_checklist.py > crates/checklist/stdout
"""
import os
import re
import sys

from rules import Dictionary, Refused, check_name

CRATE = os.path.join(os.path.dirname(os.path.abspath(__file__)), "..", "crates", "checklist")
WORDS = ["", "bad size", "short memory", "unopened", "bad kind", "too long", "not text", "no tag", "list full", "no page", "no block"]
NUMBER = rb"([0-9]{1,19})"
NAME = rb"([0-9]{1,19}) ([^\t]*)(?:\t(.*))?"


def out(*parts):
    for part in parts:
        sys.stdout.buffer.write(part if isinstance(part, bytes) else str(part).encode())
    sys.stdout.buffer.write(b"\n")


def lines(name):
    """Number and bytes of each line that is no remark."""
    out("# ", name)
    path = os.path.join(CRATE, "stdin") if name == "-" else os.path.join(CRATE, "data", name)
    with open(path, "rb") as file:
        content = file.read().removeprefix(b"\xEF\xBB\xBF")
    for number, line in enumerate(content.removesuffix(b"\n").split(b"\n"), 1):
        line = line.rstrip(b"\r")
        if line and not line.startswith(b"#"):
            yield number, line


def named(match):
    kind, first, second = match
    return int(kind), first, second or b""


def number(dictionary, name):
    fresh = known = refused = 0
    for at, line in lines(name):
        match = re.fullmatch(NAME, line, re.S)
        if not match:
            out("# line ", at, ": not a kind, a space and a name")
            refused += 1
            continue
        try:
            check_name(*named(match.groups()))
            answer = dictionary.add(*named(match.groups()))
        except Refused as why:
            out("# line ", at, ": refused, ", WORDS[why.args[0]])
            refused += 1
            continue
        fresh += answer.startswith("fresh")
        known += answer.startswith("known")
        out(answer, " ", line)
    out("# %d fresh, %d known, %d refused" % (fresh, known, refused))


def as_line(name):
    kind, first, second = name
    return b"%d %s%s" % (kind, first, b"\t" + second if second else b"")


def read(dictionary, name):
    for at, line in lines(name):
        if re.fullmatch(NUMBER, line):
            found = dictionary.names.get(int(line))
            out(int(line), " ", as_line(found) if found else "none")
        else:
            out("# line ", at, ": not a number of 19 digits at the most")


class Numbering:
    """The names of a file with their numbers; a name that comes again has the number that it was given last."""

    def __init__(self, name):
        self.numbers, self.refused = {}, 0
        for at, line in lines(name):
            match = re.fullmatch(rb"(?:fresh |known )?" + NUMBER + rb" (" + NAME + rb")", line, re.S)
            if not match:
                out("# line ", at, ": not a number, a space and a name")
                self.refused += 1
                continue
            number, text, *parts = match.groups()
            try:
                check_name(*named(parts))
            except Refused as why:
                out("# line ", at, ": refused, ", WORDS[why.args[0]])
                self.refused += 1
                continue
            self.take(named(parts), int(number), text)

    def take(self, name, number, text):
        if self.numbers.get(name, number) != number:
            out("# twice, now with ", number, " ", text)
        self.come(name, number, text)
        self.numbers[name] = number

    def come(self, name, number, text):
        pass


class Second(Numbering):
    """The second of two, each name of which is held against the first when it comes for the first time."""

    def __init__(self, first, name):
        self.first, self.agree, self.differ, self.added = first, 0, 0, 0
        super().__init__(name)

    def come(self, name, number, text):
        if name in self.numbers:
            return
        one = self.first.numbers.get(name)
        if one is None:
            if not self.added:
                out("first only in the second: ", number, " ", text)
            self.added += 1
        elif one == number:
            self.agree += 1
        else:
            if not self.differ:
                out("first difference: ", one, " in the first, ", number, " in the second: ", text)
            self.differ += 1


def compare(one, two):
    first = Numbering(one)
    second = Second(first, two)
    left = [name for name in first.numbers if name not in second.numbers]
    if left:
        out("first only in the first: ", first.numbers[left[0]], " ", as_line(left[0]))
    out("# %d agree, %d differ, %d only in the first, %d only in the second; lines refused: %d and %d"
        % (second.agree, second.differ, len(left), second.added, first.refused, second.refused))


class Paired(Numbering):
    """The first of two that are paired: each name is held against the second, which is read before it."""

    def __init__(self, second, name):
        self.second, self.both, self.only = second, 0, 0
        super().__init__(name)

    def come(self, name, number, text):
        if name in self.numbers:
            return
        two = self.second.numbers.get(name)
        if two is None:
            out("# only in the first: ", number, " ", text)
            self.only += 1
        else:
            out(number, " ", two, " ", text)
            self.both += 1


def pair(one, two):
    second = Numbering(two)
    first = Paired(second, one)
    # Kind by kind, and of each kind in the order of the second numbering.
    left = sorted((name for name in second.numbers if name not in first.numbers), key=lambda name: name[0])
    for name in left:
        out("# only in the second: ", second.numbers[name], " ", as_line(name))
    out("# %d in both, %d only in the first, %d only in the second; lines refused: %d and %d"
        % (first.both, first.only, len(left), first.refused, second.refused))


def main():
    with open(os.path.join(CRATE, "args")) as file:
        words = file.read().split("\n")[:-1]
    sizes = (24, 4096)
    dictionary = Dictionary(16, 32, 16384, *sizes)
    while words:
        word = words.pop(0)
        try:
            if word == "number":
                number(dictionary, words.pop(0))
            elif word == "read":
                read(dictionary, words.pop(0))
            elif word == "compare":
                compare(words.pop(0), words.pop(0))
                dictionary = Dictionary(16, 32, 16384, *sizes)
            elif word == "pair":
                pair(words.pop(0), words.pop(0))
                dictionary = Dictionary(16, 32, 16384, *sizes)
            elif word == "blocks":
                sizes = int(words.pop(0)), int(words.pop(0))
                dictionary = Dictionary(16, 32, 16384, *sizes)
        except FileNotFoundError as missing:
            out("# cannot be opened: ", os.path.basename(missing.filename))
            return


main()
