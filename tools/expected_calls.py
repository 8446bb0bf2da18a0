#!/usr/bin/env python3
"""Prints a file of the program `calls`: its `stdin`, which has the calls, or its `stdout`, which has what it must print.

Each call of the lists below becomes a line of `stdin`, and what must be printed for it goes to `stdout`. The heads of
crates/calls/src/run.rt and script.rt say how the lines of `stdin` are written. The answers come from document 01's
rules, as tools/rules.py has them; those of published vectors stand here as they were published. The calls of
tools/compare.d/stored.txt have the answers that Nemo gave to them, and the rules are not asked.

  python3 tools/expected_calls.py stdin > crates/calls/stdin
  python3 tools/expected_calls.py stdout > crates/calls/stdout
"""
import itertools
import os
import sys

from rules import RANGES, Dictionary, Refused, check_name, check_pair, is_text, lead, pack, read_lead, refuse_if, split, unpack


# ---- printing

def character(b):
    return chr(b) if 0x20 <= b <= 0x7E and b not in b'"\\' else "\\x%02x" % b


def runs(s):
    return "".join(" %d x '%s'" % (len(list(same)), character(b)) for b, same in itertools.groupby(s))


def part(s):
    return runs(s) if len(s) > 48 else ' "%s"' % "".join(map(character, s))


def shown(s):
    return runs(s) if len(s) > 48 else "".join(" %02x" % b for b in s)


# ---- the two files

STDIN, STDOUT = [], []


def write(line, printed):
    """A line of the input, and what is to be printed for it."""
    STDIN.append(line + "\n")
    STDOUT.append(printed)


def written(s):
    """A part of a name in a line of the input."""
    pieces = []
    for b, same in itertools.groupby(s):
        n = len(list(same))
        pieces.append("%02x*%x." % (b, n) if n > 4 else "%02x" % b * n)
    return "".join(pieces).rstrip(".") or "-"


def name_of(kind, first, second):
    return "%x %s %s" % (kind, written(first), written(second))


def title(s):
    write("-- " + s, "-- %s\n" % s)


def say(s):
    write("t " + s, s)


def line_end():
    write("", "\n")


# ---- a call with its answer. `lengths`: how many bytes of the pages and of the lists it is lent.

def write_call(which, lengths, words, printed):
    write("%s %x %x %s" % (which, *lengths, words), printed)


def write_add(lengths, kind, first, second, answer):
    write_call("a", lengths, name_of(kind, first, second), "add %d%s%s: %s\n" % (kind, part(first), part(second), answer))


def write_find(lengths, kind, first, second, answer):
    write_call("f", lengths, name_of(kind, first, second), "find %d%s%s: %s\n" % (kind, part(first), part(second), answer))


def write_read(lengths, number, answer, buffer):
    write_call("r", lengths, "%x %x" % (number, len(buffer)),
               "read %d in %d: %s, buffer%s\n" % (number, len(buffer), answer, shown(buffer)))


def write_count(lengths, kind, answer):
    write_call("c", lengths, "%x" % kind, "count %d: %s\n" % (kind, answer))


def read_answer(kind, first, second):
    return "kind %d lengths %d %d" % (kind, len(first), len(second))


# ---- the calls

class Memory:
    """Two slices, by their lengths, and the dictionary in them. Each call may be given the first bytes alone."""

    def __init__(self, pages=49156, lists=11088, byte=0xAA):
        self.pages, self.lists, self.dictionary = pages, lists, None
        self.fill(byte)

    def fill(self, byte):
        write("m %02x" % byte, "")

    def lengths(self, pages, lists):
        return self.pages if pages is None else pages, self.lists if lists is None else lists

    def opened(self, lengths):
        pages, lists = lengths
        dictionary = self.dictionary
        refuse_if(lists < 512 or dictionary is None or pages < dictionary.pages_needed or lists < dictionary.lists_needed, 3)
        return dictionary

    def open(self, *sizes, pages=None, lists=None):
        pages, lists = self.lengths(pages, lists)
        answer = "done"
        try:
            refuse_if(any(not low <= x <= high for x, (low, high) in zip(sizes, RANGES)), 1)
            dictionary = Dictionary(*sizes)
            refuse_if(pages < dictionary.pages_needed or lists < dictionary.lists_needed, 2)
            self.dictionary = dictionary
        except Refused as why:
            answer = "refused %s, memory as found" % why
        write_call("o", (pages, lists), " ".join("%x" % x for x in sizes),
                   "open %d %d %d %d %d in %d %d: %s\n" % (*sizes, pages, lists, answer))

    def added(self, kind, first, second, lengths):
        try:
            dictionary = self.opened(lengths)
            check_name(kind, first, second)
            return dictionary.add(kind, first, second)
        except Refused as why:
            return "refused %s" % why

    def add(self, kind, first, second=b"", pages=None, lists=None):
        lengths = self.lengths(pages, lists)
        answer = self.added(kind, first, second, lengths)
        if "refused" in answer:
            answer += ", memory as found"
        write_add(lengths, kind, first, second, answer)

    def add_shortly(self, kind, first):
        """The answer alone is printed."""
        lengths = (self.pages, self.lists)
        write_call("A", lengths, name_of(kind, first, b""), " " + self.added(kind, first, b"", lengths))

    def add_quietly(self, kind, first):
        lengths = (self.pages, self.lists)
        self.added(kind, first, b"", lengths)
        write_call("q", lengths, name_of(kind, first, b""), "")

    def find(self, kind, first, second=b"", pages=None, lists=None):
        lengths = self.lengths(pages, lists)
        try:
            dictionary = self.opened(lengths)
            check_name(kind, first, second)
            number = dictionary.numbers.get((kind, first, second))
            answer = "none" if number is None else "known %d" % number
        except Refused as why:
            answer = "refused %s" % why
        write_find(lengths, kind, first, second, answer)

    def read(self, number, length, pages=None, lists=None):
        lengths = self.lengths(pages, lists)
        buffer = b"\xAA" * length
        answer = "none"
        try:
            dictionary = self.opened(lengths)
            if number in dictionary.names:
                kind, first, second = dictionary.names[number]
                both = first + second
                refuse_if(length < len(both), 11)
                buffer = both + buffer[len(both):]
                answer = read_answer(kind, first, second)
        except Refused as why:
            answer = "refused %s" % why
        write_read(lengths, number, answer, buffer)

    def reads_back(self, number, kind, first):
        """Whether the number has that name; the program counts it."""
        write_call("=", (self.pages, self.lists), "%s %x" % (name_of(kind, first, b""), number), "")
        return self.dictionary.names.get(number) == (kind, first, b"")

    def counted(self, kind, lengths):
        try:
            dictionary = self.opened(lengths)
            refuse_if(kind > 3, 4)
            return "%d" % dictionary.fresh[kind]
        except Refused as why:
            return "refused %s" % why

    def count(self, kind, pages=None, lists=None):
        lengths = self.lengths(pages, lists)
        write_count(lengths, kind, self.counted(kind, lengths))

    def counts(self):
        lengths = (self.pages, self.lists)
        say("count 0 to 3:")
        for kind in range(4):
            write_call("C", lengths, "%x" % kind, " " + self.counted(kind, lengths))
        line_end()

    def beyond(self):
        """The bytes past what the sizes need, which were AA."""
        needed = (self.dictionary.pages_needed, self.dictionary.lists_needed)
        pages = b"\xAA" * (self.pages - needed[0])
        lists = b"\xAA" * (self.lists - needed[1])
        write_call("b", (self.pages, self.lists), "%x %x" % needed, "beyond:%s and%s\n" % (shown(pages), shown(lists)))


# ---- the leaf rules

def leaf(which, printed, first=b"", second=b"", value=0, length=0):
    write("%s %x %x %s %s" % (which, value, length, written(first), written(second)), printed + "\n")


def text_check(s, yes=None):
    """`yes`: what a document says of these bytes."""
    assert yes is None or is_text(s) == yes
    leaf("T", "is_text%s: %d" % (part(s), is_text(s)), s)


def split_iri(s):
    leaf("S", "split_iri%s: %d" % (part(s), len(split(s)[0])), s)


def hash_of(s, published):
    leaf("H", "fnv%s: %08x" % (part(s), published), s)


def read_fid(s):
    try:
        answer = "value %d length %d" % read_lead(s)
    except Refused as why:
        answer = "refused %s" % why
    leaf("R", "read_fid%s: %s" % (shown(s), answer), s)


def into_buffer(length, write):
    """The answer, and what stands in the buffer of AA: `write` gives the words of the answer and the bytes, or refuses."""
    buffer = b"\xAA" * length
    try:
        words, out = write()
        refuse_if(length < len(out), 11)
        buffer = out + buffer[len(out):]
    except Refused as why:
        words = "refused %s" % why
    return " in %d: %s, buffer%s" % (length, words, shown(buffer))


def write_fid(value, length=5):
    def form():
        refuse_if(value >= 1 << 30, 12)
        return "length %d" % len(lead(value)), lead(value)
    leaf("W", "write_fid %d%s" % (value, into_buffer(length, form)), value=value, length=length)


def packed(text, tag, length):
    def form():
        check_pair(text, tag)
        return "length %d" % len(pack(text, tag)), pack(text, tag)
    leaf("P", "pack%s%s%s" % (part(text), part(tag), into_buffer(length, form)), text, tag, length=length)


def unpacked(s, length):
    def parts():
        text, tag = unpack(s)
        return "lengths %d %d" % (len(text), len(tag)), text + tag
    leaf("U", "unpack%s%s" % (part(s), into_buffer(length, parts)), s, length=length)


# ---- the lists of calls

def texts():
    title("text: the examples of RFC 3629, section 7")
    text_check(b"\x41\xE2\x89\xA2\xCE\x91\x2E", True)
    text_check(b"\xED\x95\x9C\xEA\xB5\xAD\xEC\x96\xB4", True)
    text_check(b"\xE6\x97\xA5\xE6\x9C\xAC\xE8\xAA\x9E", True)
    text_check(b"\xEF\xBB\xBF\xF0\xA3\x8E\xB4", True)
    title("text: the first and the last character of each length")
    for c in ("", "\0", "\x7F", "\x80", "\u07FF", "\u0800", "\uFFFF", "\U00010000", "\U0010FFFF"):
        text_check(c.encode(), True)
    title("not text: two, three and four bytes where fewer would do")
    for s in (b"\xC0\x80", b"\xC1\xBF", b"\xE0\x80\x80", b"\xE0\x9F\xBF", b"\xF0\x80\x80\x80", b"\xF0\x8F\xBF\xBF"):
        text_check(s, False)
    title("not text: surrogates; text: the characters before and after them")
    text_check(b"\xED\x9F\xBF", True)
    text_check(b"\xED\xA0\x80", False)
    text_check(b"\xED\xBF\xBF", False)
    text_check(b"\xEE\x80\x80", True)
    title("not text: above 10FFFF, no byte of UTF-8, a tail byte first")
    for s in (b"\xF4\x90\x80\x80", b"\xF5\x80\x80\x80", b"\xFE", b"\xFF", b"\x80"):
        text_check(s, False)
    title("not text: cut at every length, also with a letter before or behind")
    for s in (b"\xC3", b"\xE2", b"\xE2\x89", b"\xF0", b"\xF0\xA3", b"\xF0\xA3\x8E", b"\xE2\x89\x41", b"\x41\xC3"):
        text_check(s, False)


def splits():
    title("the split of an IRI")
    for s in (b"http://p/a#b", b"a/", b"urn:press", b"", b"/", b"#", b"a#b/c", b"a/b#c", b"a/b/"):
        split_iri(s)


def hashes():
    title("FNV-1a of 32 bits: values from the test list of its authors")
    for s, published in ((b"", 0x811c9dc5), (b"a", 0xe40c292c), (b"b", 0xe70c2de5), (b"c", 0xe60c2c52), (b"d", 0xe10c2473),
                         (b"e", 0xe00c22e0), (b"f", 0xe30c2799), (b"fo", 0x6222e842), (b"foo", 0xa9f37ed7),
                         (b"foob", 0x3f5076ef), (b"fooba", 0x39aaa18a), (b"foobar", 0xbf9cf968)):
        hash_of(s, published)


def leads():
    title("frequent ids written, at every boundary")
    for value in (0, 63, 64, 16383, 16384, 4194303, 4194304, 2**30 - 1, 2**30, 2**64 - 1):
        write_fid(value)
    title("frequent ids written into a buffer that is too short: 12 comes before 11")
    for value, length in ((63, 0), (64, 1), (16384, 2), (4194304, 3), (2**30, 0)):
        write_fid(value, length)
    title("frequent ids read: what follows is not looked at")
    for s in (b"\x3F\x99", b"\x40\x40\x99", b"\x7F\xFF", b"\x80\x40\x00", b"\xC0\x40\x00\x00\x99", b"\xFF\xFF\xFF\xFF"):
        read_fid(s)
    title("frequent ids longer than needed are read by value")
    for s in (b"\x40\x3F", b"\x80\x00\x01", b"\xC0\x00\x00\x00"):
        read_fid(s)
    title("frequent ids cut short")
    for s in (b"", b"\x40", b"\x80\x00", b"\xC0\x00\x00"):
        read_fid(s)


# A long tag with bytes that are escaped.
MARKED = b"a" * 120 + b">" * 8


def packings():
    title("packing: short tags")
    packed(b"Ein", b"de", 8)
    packed(b"", b"de", 4)
    packed(b"Ein", b"de", 6)
    packed(b"Ein", b"de", 5)
    packed(b"Ein", b"\\>", 8)
    packed(b"Ein", b"a" * 127, 140)
    title("packing: long tags")
    packed(b"", b"a" * 127 + b">", 140)
    packed(b"Ein", b"a" * 128, 140)
    packed(b"Ein", b"\\" * 128, 270)
    packed(b"Ein", MARKED, 150)
    packed(b"Ein", MARKED, 141)
    packed(b"Ein", MARKED, 140)
    title("packing: the longest pair, and one byte more")
    packed(b"a" * 3998, b"de", 4001)
    packed(b"a" * 3999, b"de", 4001)
    packed(b"", b"\\" * 4000, 8002)
    title("packing refused: 5, 6, 7, 11 in this order")
    packed(b"Ein", b"", 8)
    packed(b"\xFF", b"de", 8)
    packed(b"Ein", b"\xC3", 8)
    packed(b"\xFF", b"", 8)
    packed(b"\xFF" * 4001, b"", 8)
    packed(b"Ein", b"", 0)


def unpackings():
    title("unpacking")
    unpacked(b"\x02deEin", 8)
    unpacked(pack(b"Ein", MARKED), 140)
    unpacked(pack(b"Ein", MARKED), 130)
    title("unpacking: the longest form, one byte more, and a form that holds too long a name")
    unpacked(pack(b"", b"\\" * 4000), 4000)
    unpacked(b"\xAA" * 8003, 4000)
    unpacked(b"\x01" * 4003, 4001)
    title("unpacking refuses what packing never makes")
    unpacked(b"", 4)
    unpacked(b"\x03de", 4)
    unpacked(b"\x80" * 200, 4)
    unpacked(b"\0" * 200, 4)
    unpacked(b"\0de>Ein", 8)
    unpacked(b"\x01\xC3\xA9", 4)
    unpacked(b"\x01\xFFEin", 8)
    title("unpacking refused: 5, 13, 11 in this order")
    unpacked(b"", 0)
    unpacked(b"\0" * 8003, 0)


def opening():
    m = Memory(16384, 976)
    good = [13, 2, 2, 4, 4]

    def instead(size, value):
        m.open(*(value if i == size else x for i, x in enumerate(good)))

    title("a size just outside its range")
    for size, (low, high) in enumerate(RANGES):
        instead(size, low - 1)
        instead(size, high + 1)
    title("a size near 2^32, 2^61, 2^63, 2^64")
    instead(0, 2**32 + 13)
    instead(0, 2**63 - 1)
    instead(0, 2**63 + 13)
    instead(1, 2**63)
    instead(1, 2**63 + 2)
    instead(2, 2**61 + 2)
    instead(2, 2**63 + 2)
    instead(3, 2**63 + 4)
    instead(3, 2**64 - 1)
    instead(4, 2**63 + 4)
    instead(4, 2**64 - 1)

    title("memory too short, and just long enough")
    small = [13, 1, 1, 4, 1]
    m.open(*good, pages=16383)
    m.open(*good, lists=975)
    m.open(*good)
    m.open(*small, pages=8191, lists=704)
    m.open(*small, pages=8192, lists=703)
    m.open(*small, pages=8192, lists=704)
    m.open(*small, pages=0, lists=0)
    m.open(12, 1, 1, 4, 1, pages=0, lists=0)

    m = Memory(8196, 708)
    title("memory longer than needed")
    m.open(*small)
    m.beyond()

    m = Memory(8192, 704)
    title("the largest sizes")
    m.open(20, 1, 1, 4, 1)
    m.open(13, 1024, 1, 4, 1)
    m.open(13, 1, 1048576, 4, 1)
    m.open(13, 1, 1, 4, 4096)
    m.open(20, 1024, 1048576, 24, 4096)
    m.open(13, 1, 1, 24, 1)

    m = Memory(8196, 852)
    title("an open refused leaves the dictionary as it was")
    m.open(13, 1, 2, 4, 1)
    m.add(1, b"a")
    m.open(12, 1, 2, 4, 1)
    m.open(13, 1, 2, 4, 1, pages=8191, lists=852)
    m.open(13, 1, 2, 4, 1, lists=847)
    m.find(1, b"a")
    m.count(1)
    m.add(1, b"b")
    m.beyond()

    m = Memory(16384, 976)
    title("an open that is done forgets all names")
    m.open(*good)
    m.add(1, b"a")
    m.add(1, b"b")
    m.open(13, 1, 1, 24, 1)
    m.find(1, b"a")
    m.count(1)
    m.read(0, 2)
    m.add(1, b"c")
    m.read(0, 2)
    m.read(1, 2)


def kinds():
    m = Memory()
    title("IRIs")
    m.open(13, 2, 8, 4, 4)
    m.add(0, b"http://p/a#b")
    m.add(0, b"http://p/a#b")
    m.find(0, b"http://p/a#b")
    m.find(0, b"http://p/a#c")
    m.add(0, b"http://p/a#c")
    m.add(0, b"urn:press")
    m.find(0, b"")
    for iri in (b"", b"a/", b"a#", b"a"):
        m.add(0, iri)
    m.find(0, b"")
    m.read(0, 14)
    m.read(1, 14)
    m.read(2, 14)
    m.read(3, 2)
    m.read(4, 4)
    m.counts()
    m.beyond()

    m = Memory()
    title("plain strings")
    m.open(13, 1, 4, 4, 4)
    m.add(1, b"Ein")
    m.add(1, b"Ein")
    m.find(1, b"Ein")
    m.find(1, b"ein")
    m.add(1, "K\u00e4se".encode())
    m.find(1, b"")
    m.add(1, b"")
    m.find(1, b"")
    m.add(1, "\U0010FFFF".encode())
    m.read(0, 5)
    m.read(1, 7)
    m.read(2, 2)
    m.read(3, 5)
    m.counts()
    m.beyond()

    m = Memory()
    title("tagged strings")
    m.open(13, 1, 8, 4, 4)
    m.add(2, b"Ein", b"de")
    m.add(2, b"Ein", b"de")
    m.find(2, b"Ein", b"de")
    m.find(2, b"de", b"Ein")
    m.add(2, b"Ein", b"en")
    m.add(2, b"Ein", b"DE")
    m.add(2, b"", b"de")
    m.add(2, b"in", b"deE")
    m.add(2, b"\\>", b"\\>")
    m.read(0, 7)
    m.read(3, 4)
    m.read(4, 7)
    m.read(5, 6)
    m.counts()
    m.beyond()

    m = Memory()
    head = b"http://www.w3.org/2001/XMLSchema#string"
    title("typed values")
    m.open(13, 3, 8, 4, 4)
    m.add(3, head, b"Ein")
    m.add(3, head, b"Ein")
    m.find(1, b"Ein")
    m.add(1, b"Ein")
    m.find(3, head, b"Ein")
    m.add(3, b"")
    m.add(3, b"ab")
    m.add(3, b"a", b"b")
    m.find(3, b"", b"ab")
    m.add(3, b"", b"ab")
    m.find(3, b"b", b"a")
    m.read(0, 44)
    m.read(1, 2)
    for number in (2, 3, 4):
        m.read(number, 4)
    m.counts()
    m.beyond()

    m = Memory()
    title("the same parts in every kind")
    m.open(13, 6, 2, 4, 4)
    m.add(0, b"a")
    m.add(1, b"a")
    m.add(2, b"a", b"a")
    m.add(3, b"a", b"a")
    m.add(0, b"")
    m.add(1, b"")
    m.add(2, b"", b"a")
    m.add(3, b"")
    m.find(0, b"")
    m.find(1, b"")
    m.find(3, b"")
    m.read(0, 2)
    m.read(16, 2)
    m.read(32, 3)
    m.read(48, 3)
    m.read(33, 3)
    m.counts()
    m.count(4)
    m.count(2**32)
    m.count(2**64 - 1)

    m = Memory()
    title("bad kinds")
    m.open(13, 6, 2, 4, 4)
    m.add(4, b"a")
    m.add(2**32, b"a")
    m.add(2**32 + 2, b"a", b"a")
    m.add(2**63 + 1, b"a")
    m.add(0, b"a", b"b")
    m.add(1, b"a", b"b")
    m.add(0, b"", b"b")
    m.find(4, b"a")
    m.find(2**32, b"a")
    m.find(0, b"a", b"b")
    m.find(1, b"", b"b")
    m.counts()

    m = Memory()
    title("not text, no tag")
    m.open(13, 6, 2, 4, 4)
    m.add(0, b"http://p/\xFF")
    m.add(0, b"\xC3/")
    m.add(1, b"\xC0\x80")
    m.add(2, b"\xC3", b"de")
    m.add(2, b"Ein", b"\xC3")
    m.add(3, b"\xED\xA0\x80")
    m.add(3, b"", b"\xF4\x90\x80\x80")
    m.add(2, b"\xC3", b"\xA9")
    m.add(2, b"\xA9", b"\xC3")
    m.add(3, b"\xC3", b"\xA9")
    m.add(2, b"Ein", b"")
    m.add(2, b"", b"")
    m.find(1, b"\xC0\x80")
    m.find(3, b"\xC3", b"\xA9")
    m.find(2, b"Ein", b"")
    m.counts()

    m = Memory()
    title("the order of refusals")
    m.open(13, 6, 2, 4, 4)
    m.add(4, b"a" * 4001)
    m.add(0, b"a" * 4000, b"b")
    m.add(1, b"\xFF", b"b")
    m.add(1, b"\xFF" * 4001)
    m.add(2, b"a" * 4001)
    m.add(2, b"\xFF")
    m.find(4, b"a" * 4001)
    m.find(1, b"\xFF" * 4001)
    m.find(2, b"a" * 4001)
    m.find(2, b"\xFF")


def lengths():
    m = Memory()
    title("4,000 bytes: plain")
    m.open(13, 1, 2, 4, 4)
    m.add(1, b"a" * 4001)
    m.add(1, b"a" * 4000)
    m.find(1, b"a" * 4001)
    m.find(1, b"a" * 4000)
    m.find(1, b"a" * 3999)
    m.read(0, 4002)

    m = Memory()
    title("4,000 bytes: IRI")
    m.open(13, 2, 4, 4, 4)
    m.add(0, b"a" * 4001)
    m.add(0, b"/" * 4001)
    m.add(0, b"a" * 4000)
    m.add(0, b"/" * 4000)
    m.find(0, b"/" * 4000)
    m.find(0, b"/" * 3999)
    m.read(0, 4002)
    m.read(1, 4002)

    m = Memory()
    title("4,000 bytes: typed")
    m.open(13, 2, 4, 4, 4)
    m.add(3, b"h" * 2000, b"r" * 2001)
    m.add(3, b"h" * 2001, b"r" * 2000)
    m.add(3, b"h" * 4001, b"")
    m.add(3, b"", b"r" * 4001)
    m.add(3, b"h" * 2000, b"r" * 2000)
    m.add(3, b"h" * 4000, b"")
    m.add(3, b"", b"r" * 4000)
    for number in range(3):
        m.read(number, 4002)

    m = Memory()
    title("4,000 bytes: tagged")
    m.open(13, 2, 4, 4, 4)
    m.add(2, b"t" * 3874, b"a" * 127)
    m.add(2, b"t" * 3873, b"a" * 128)
    m.add(2, b"", b">" * 4001)
    m.add(2, b"t", b">" * 4000)
    m.add(2, b"t" * 3873, b"a" * 127)
    m.add(2, b"t" * 3872, b"a" * 128)
    m.add(2, b"", b">" * 4000)
    m.find(2, b"t" * 3872, b"a" * 128)
    m.find(2, b"", b">" * 4000)
    m.find(2, b"", b">" * 3999)
    for number in range(3):
        m.read(number, 4002)

    m = Memory()
    title("8,002 bytes packed, 190 are left in the page")
    m.open(13, 1, 4, 4, 4)
    m.add(2, b"", b">" * 4000)
    m.add(2, b"t" * 189, b"a")
    m.add(2, b"t" * 188, b"a")
    m.add(2, b"", b"a")
    m.read(0, 4001)
    m.read(1, 190)

    m = Memory()
    title("tags of 127 and of 128 bytes packed, 189 are left in the page")
    m.open(13, 1, 4, 4, 4)
    m.add(2, b"t" * 3873, b"a" * 127)
    m.add(2, b"t" * 3872, b"a" * 128)
    m.add(2, b"t" * 188, b"a")
    m.add(2, b"t" * 187, b"a")
    m.add(2, b"", b"a")

    m = Memory()
    title("escapes packed, 148 are left in the page")
    m.open(13, 1, 4, 4, 4)
    m.add(2, b"t" * 3700, b"\\" * 128)
    m.add(2, b"t" * 3700, b">" * 127)
    m.add(2, b"", b">" * 128)
    m.add(2, b"t" * 147, b"a")
    m.add(2, b"t" * 146, b"a")
    m.read(0, 3829)
    m.read(1, 3829)
    m.read(2, 129)


def four_heads(m):
    m.open(13, 3, 5, 4, 4)
    m.add(0, b"a/" + b"x" * 3998)
    m.add(0, b"b/" + b"x" * 3998)
    m.add(0, b"/" * 4000)
    m.add(0, b"#" * 4000)


def filling():
    m = Memory()
    title("one page, exactly full")
    m.open(13, 1, 8, 4, 4)
    m.add(1, b"a" * 4000)
    m.add(1, b"b" * 4000)
    m.add(1, b"c" * 193)
    m.add(1, b"c" * 192)
    m.add(1, b"")
    m.add(1, b"d")
    m.add(1, b"d")
    m.find(1, b"d")
    m.add(1, b"c" * 192)
    m.add(1, b"")
    m.find(1, b"b" * 4000)
    m.read(2, 193)
    m.read(3, 2)
    m.count(1)
    m.beyond()

    m = Memory()
    title("two pages, exactly full")
    m.open(13, 2, 9, 4, 4)
    m.add(1, b"a" * 4000)
    m.add(1, b"b" * 4000)
    m.add(1, b"c" * 192)
    m.add(1, b"")
    m.add(1, b"d")
    m.add(2, b"t", b"a")
    m.add(1, b"e" * 4000)
    m.add(1, b"f" * 4000)
    m.add(1, b"g" * 192)
    m.add(1, b"g" * 191)
    m.add(1, b"h")
    m.read(3, 2)
    m.read(4, 2)
    m.read(6, 4001)
    m.read(7, 192)
    m.counts()
    m.beyond()

    m = Memory()
    title("the rest of a page left early stays unused")
    m.open(13, 2, 9, 4, 4)
    m.add(1, b"a" * 4000)
    m.add(1, b"b" * 4000)
    m.add(1, b"c" * 193)
    m.add(1, b"d" * 4000)
    m.add(1, b"e" * 3999)
    m.add(1, b"f")
    m.add(1, b"")
    m.read(2, 193)
    m.read(4, 4000)
    m.read(5, 1)

    m = Memory()
    title("an empty head and an empty string need a page each")
    m.open(13, 2, 4, 4, 4)
    m.add(0, b"")
    m.add(1, b"")
    m.add(1, b"")
    m.find(1, b"")
    m.add(0, b"a")
    m.counts()
    m.open(13, 1, 4, 4, 4)
    m.add(0, b"")
    m.add(3, b"")
    m.add(1, b"")
    m.add(2, b"", b"a")
    m.add(0, b"")
    m.add(1, b"a")
    m.counts()

    m = Memory()
    title("a page for the head, none for the pair")
    m.open(13, 2, 4, 4, 4)
    m.add(1, b"s")
    m.add(0, b"http://p/a")
    m.add(0, b"http://p/a")
    m.add(3, b"h", b"r")
    m.find(0, b"http://p/a")
    m.count(0)
    m.add(2, b"t", b"a")
    m.counts()

    e = b"h" * 200 + b"/" + b"h" * 200
    m = Memory()
    title("a refused IRI leaves no head: a fifth head and the last page are free")
    four_heads(m)
    m.add(0, e)
    m.add(0, e)
    m.find(0, e)
    m.count(0)
    m.add(0, b"q/x")
    m.add(1, b"s")
    m.read(4, 4)

    m = Memory()
    title("a refused IRI leaves no head: another IRI with it takes the last page")
    four_heads(m)
    m.add(0, e)
    m.add(0, b"h" * 200 + b"/h")
    m.add(1, b"s")
    m.add(0, b"q/x")
    m.read(0, 4000)
    m.read(3, 4000)
    m.read(4, 204)


def refusing():
    m = Memory()
    title("lists of two entries")
    m.open(13, 6, 2, 4, 4)
    for text in (b"a", b"b", b"c", b"a"):
        m.add(1, text)
    m.find(1, b"c")
    for iri in (b"x/a", b"x/b", b"x/c", b"y/c", b"x/b"):
        m.add(0, iri)
    for text in (b"a", b"b", b"c"):
        m.add(2, text, b"de")
    m.add(3, b"x", b"a")
    m.add(3, b"y", b"a")
    m.add(3, b"x", b"c")
    m.add(3, b"z", b"a")
    m.add(3, b"y", b"a")
    m.counts()

    m = Memory()
    title("lists of one entry")
    m.open(13, 6, 1, 4, 4)
    for iri in (b"a/x", b"b/x", b"a/y", b"a/x"):
        m.add(0, iri)
    m.add(3, b"h", b"r")
    m.add(3, b"g", b"r")
    m.add(3, b"h", b"s")
    m.find(3, b"h", b"r")
    m.find(3, b"h", b"s")
    m.counts()

    m = Memory()
    title("a full list before no page")
    m.open(13, 1, 3, 4, 4)
    m.add(1, b"a" * 4000)
    m.add(1, b"b" * 4000)
    m.add(1, b"c" * 192)
    m.add(1, b"d")
    m.add(2, b"d", b"de")
    m.add(1, b"b" * 4000)

    m = Memory()
    title("no page before no block; no block leaves all as it was")
    m.open(13, 3, 2, 4, 1)
    m.add(1, b"a")
    m.add(0, b"http://p/a")
    m.add(0, b"http://p/a")
    m.add(2, b"a", b"de")
    m.add(3, b"h", b"r")
    m.find(0, b"http://p/a")
    m.add(1, b"b")
    m.counts()
    m.open(13, 2, 2, 4, 1)
    m.add(1, b"a")
    m.add(0, b"http://p/a")
    m.add(2, b"a", b"de")
    m.add(3, b"h", b"r")
    m.counts()


def numbered(m, kind, count):
    """The names http://p/00 and on, five to a line with their answers alone."""
    for start in range(0, count, 5):
        say("add %d http://p/%02d to %02d:" % (kind, start, start + 4))
        for i in range(start, start + 5):
            m.add_shortly(kind, b"http://p/%02d" % i)
        line_end()


def block_reads(m):
    for number in (0, 15, 16, 47, 48, 63, 64, 80, 96, 111, 112, 113, 127):
        m.read(number, 12)


def blocks():
    m = Memory()
    title("M9: 65 IRIs, blocks of 16, 8 blocks")
    m.open(13, 4, 66, 4, 8)
    numbered(m, 0, 65)
    block_reads(m)
    for number in (128, 2**32, 2**63, 2**64 - 1):
        m.read(number, 12)
    title("M10: then 50 strings")
    numbered(m, 1, 50)
    block_reads(m)
    m.add(2, b"a", b"de")
    m.add(3, b"h", b"r")
    m.add(1, b"http://p/48")
    m.add(1, b"http://p/47")
    m.add(0, b"http://p/64")
    m.add(0, b"http://p/65")
    m.add(0, b"http://p/66")
    m.counts()

    m = Memory()
    title("M11: 65 IRIs, 7 blocks")
    m.open(13, 4, 66, 4, 7)
    numbered(m, 0, 65)
    m.add(0, b"http://p/64")
    m.find(0, b"http://p/64")
    m.find(0, b"http://p/63")
    block_reads(m)
    numbered(m, 1, 5)
    m.counts()


def reading():
    m = Memory()
    title("buffers one byte too short, just long enough, longer")
    m.open(13, 6, 2, 4, 4)
    m.add(0, b"http://p/a")
    for length in (9, 10, 12):
        m.read(0, length)
    m.add(1, b"Ein")
    for length in (0, 2, 3, 5):
        m.read(16, length)
    m.add(2, b"Ein", b"de")
    for length in (4, 5, 7):
        m.read(32, length)
    m.add(3, b"ab", b"cde")
    for length in (4, 5, 7):
        m.read(48, length)

    m = Memory()
    title("buffers of length 0")
    m.open(13, 6, 2, 4, 4)
    m.read(0, 0)
    m.add(0, b"")
    m.add(1, b"")
    m.add(3, b"")
    m.add(2, b"", b"a")
    for number in (0, 16, 32, 48, 49, 64):
        m.read(number, 0)

    m = Memory()
    tag = b"\\a" + b">" * 124 + b"\\\\"
    title("long tags")
    m.open(13, 1, 4, 4, 4)
    m.add(2, b">\\a", tag)
    m.add(2, b"", tag)
    m.add(2, b">", b">" * 127)
    m.find(2, b">\\a", tag)
    m.find(2, b"\\a", tag)
    for length in (130, 131, 133):
        m.read(0, length)
    for number in (1, 2):
        m.read(number, 127)
        m.read(number, 128)


def four(m, pages=None, lists=None):
    m.add(1, b"a", b"", pages, lists)
    m.find(1, b"a", b"", pages, lists)
    m.read(0, 2, pages, lists)
    m.count(1, pages, lists)


def unopened():
    m = Memory(8192, 704, byte=0)
    title("lists all zero")
    four(m)
    title("unopened before every other refusal")
    m.add(4, b"\xFF" * 4001, b"a")
    m.find(2, b"\xFF")
    m.read(2**64 - 1, 0)
    m.count(4)
    for what, byte, pages, lists in (
            ("511 bytes that are zero", 0, 8192, 511),
            ("511 bytes that are AA", 0xAA, 8192, 511),
            ("lists of no bytes", 0xAA, 8192, 0),
            ("no bytes at all", 0xAA, 0, 0)):
        title(what)
        m.fill(byte)
        four(m, pages, lists)

    title("a dictionary")
    m.open(13, 1, 1, 4, 1)
    four(m)
    for what, pages, lists in (
            ("703 bytes of its lists", 8192, 703),
            ("512 bytes of its lists", 8192, 512),
            ("511 bytes of its lists", 8192, 511),
            ("8,191 bytes of its pages", 8191, 704),
            ("all of them", 8192, 704)):
        title(what)
        four(m, pages, lists)

    m = Memory(8193, 705)
    title("a dictionary in a part of the memory")
    m.open(13, 1, 2, 4, 1, pages=8192, lists=704)
    m.open(13, 1, 1, 4, 1, pages=8192, lists=704)
    four(m, 8192, 704)
    title("and with a byte more")
    four(m)
    m.add(1, b"b")
    m.beyond()
    title("and in the part again")
    four(m, 8192, 704)


def heads():
    m = Memory()
    names = [b"%02d/x" % i for i in range(70)]

    def right():
        back = [m.reads_back(i, 0, name) for i, name in enumerate(names)]
        write("n read back right:", "read back right: %d\n" % sum(back))

    title("70 heads")
    m.open(13, 2, 73, 24, 1)
    for i, name in enumerate(names):
        if i % 10 == 0:
            m.add(0, name)
        else:
            m.add_quietly(0, name)
    right()
    m.add(0, b"63/x")
    m.add(0, b"64/x")
    m.find(0, b"64/y")
    for number in (63, 64, 70, 2**24 - 1, 2**24):
        m.read(number, 5)
    for letter, length in ((b"a", 3997), (b"b", 3997), (b"c", 47), (b"d", 46)):
        m.add(0, b"69/" + letter * length)
    right()
    m.read(70, 4001)
    m.read(72, 50)
    m.counts()


# ---- Nemo's answers

def parts(name):
    """Both parts of a name, as tools/compare.d/driver/stored.rs writes it."""
    return [s.encode().decode("unicode_escape").encode("latin-1") for s in name.split("|")]


def stored():
    """Nemo has no open, no sizes and no buffers. Each list is opened with room for all its names; a buffer is two bytes
    longer than the name, and document 01 leaves these untouched."""
    lent, untouched = (65536, 20416), b"\xAA" * 2
    with open(os.path.join(os.path.dirname(__file__), "compare.d/stored.txt")) as lines:
        for line in lines:
            match line.split():
                case ["--", *words]:
                    m = Memory(*lent)
                    title("Nemo's answers: " + " ".join(words))
                    m.open(13, 8, 120, 4, 64)
                case ["add", kind, name, word, number]:
                    write_add(lent, int(kind), *parts(name), "%s %s" % (word, number))
                case ["find", kind, name, *answer]:
                    write_find(lent, int(kind), *parts(name), " ".join(answer))
                case ["read", number, "none"]:
                    write_read(lent, int(number), "none", untouched)
                case ["read", number, "name", kind, name]:
                    first, second = parts(name)
                    write_read(lent, int(number), read_answer(int(kind), first, second), first + second + untouched)
                case ["count", kind, number]:
                    write_count(lent, int(kind), number)
                case _:
                    raise ValueError(line)


for section in (opening, kinds, lengths, reading, unopened, filling, refusing, blocks, heads, texts, splits, hashes, leads, packings, unpackings, stored):
    section()
assert sum(map(len, STDIN)) <= 65536, "the program's buffer is too short"
sys.stdout.write("".join({"stdin": STDIN, "stdout": STDOUT}[sys.argv[1]]))
