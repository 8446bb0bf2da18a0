"""Document 01's rules in Python, for the programs that compute expected output. Names, pages and blocks are kept in Python's own
collections; no memory is laid out.
"""
import itertools
import re

LONGEST = 4000
LONGEST_PACKED = 8002
RANGES = [(13, 20), (1, 1024), (1, 1048576), (4, 24), (1, 4096)]  # p, N, E, w, B

# RFC 3629, section 4.
UTF8 = re.compile(
    rb"(?:[\x00-\x7F]|[\xC2-\xDF][\x80-\xBF]"
    rb"|\xE0[\xA0-\xBF][\x80-\xBF]|[\xE1-\xEC][\x80-\xBF]{2}|\xED[\x80-\x9F][\x80-\xBF]|[\xEE-\xEF][\x80-\xBF]{2}"
    rb"|\xF0[\x90-\xBF][\x80-\xBF]{2}|[\xF1-\xF3][\x80-\xBF]{3}|\xF4[\x80-\x8F][\x80-\xBF]{2})*")


class Refused(Exception):
    pass


def refuse_if(fact, number):
    if fact:
        raise Refused(number)


# ---- the rules

def split(iri):
    """After the last '/' or '#'; with neither the head is empty."""
    cut = max(iri.rfind(b"/"), iri.rfind(b"#")) + 1
    return iri[:cut], iri[cut:]


def lead(f):
    """Big endian; the two top bits tell the length."""
    for length in (1, 2, 3, 4):
        if f < 1 << (8 * length - 2):
            return (((length - 1) << (8 * length - 2)) + f).to_bytes(length, "big")
    raise ValueError("2^30 or more")


def pack(text, tag):
    if len(tag) <= 127:
        return bytes([len(tag)]) + tag + text
    return b"\0" + tag.replace(b"\\", b"\\\\").replace(b">", b"\\a") + b">" + text


def is_text(s):
    return UTF8.fullmatch(s) is not None


def read_lead(s):
    """The value and the length of the lead in front."""
    length = (s[0] >> 6) + 1 if s else 1
    refuse_if(len(s) < length, 13)
    return int.from_bytes(s[:length], "big") % (1 << (8 * length - 2)), length


def check_pair(text, tag):
    refuse_if(len(text) + len(tag) > LONGEST, 5)
    refuse_if(not (is_text(text) and is_text(tag)), 6)
    refuse_if(not tag, 7)


def unpack(form):
    """Text and tag. Exactly what packing makes of a legal pair is accepted."""
    refuse_if(len(form) > LONGEST_PACKED, 5)
    refuse_if(not form, 13)
    if form[0]:
        tag, text = form[1:1 + form[0]], form[1 + form[0]:]
    else:
        tag, _, text = form[1:].partition(b">")
        tag = re.sub(rb"\\(.)", lambda m: {b"a": b">"}.get(m[1], m[1]), tag, flags=re.DOTALL)
    try:
        check_pair(text, tag)
    except Refused:
        raise Refused(13)
    refuse_if(pack(text, tag) != form, 13)
    return text, tag


class Entries:
    """One of the six: its entries, and how much of its page is used (None: it has no page)."""

    def __init__(self):
        self.entries = {}
        self.used = None

    def needs_page(self, entry, size):
        return self.used is None or self.used + len(entry) > size


class Dictionary:
    def __init__(self, p, n, e, w, b):
        self.page_size, self.pages_left, self.most, self.width, self.blocks = 1 << p, n, e, w, b
        self.pages_needed = n << p
        self.lists_needed = 8 * (64 + n + 18 * e + 5 * b)
        self.heads = {0: Entries(), 3: Entries()}
        self.whole = {k: Entries() for k in range(4)}  # IRI pairs, strings, tagged, typed pairs
        self.held = {k: [] for k in range(4)}  # the global blocks of each kind, in the order of its local blocks
        self.fresh = {k: 0 for k in range(4)}
        self.numbers = {}
        self.names = {}

    def gains(self, kind, first, second):
        """The entries that the dictionaries would gain."""
        if kind == 1:
            return [(self.whole[1], first)]
        if kind == 2:
            return [(self.whole[2], pack(first, second))]
        head, rest = split(first) if kind == 0 else (first, second)
        heads = self.heads[kind]
        pair = (self.whole[kind], lead(heads.entries.get(head, len(heads.entries))) + rest)
        return [pair] if head in heads.entries else [(heads, head), pair]

    def block(self, kind):
        """The global block of the kind's next name, and whether it is a new one."""
        held = self.held[kind]
        l = self.fresh[kind] >> self.width
        if l < len(held):
            return held[l], False
        start = 0 if l == 0 else held[l - 1] + (l - 1)
        taken = set(itertools.chain(*self.held.values()))
        return next(g for g in itertools.count(start) if g not in taken), True

    def add(self, kind, first, second):
        name = (kind, first, second)
        if name in self.numbers:
            return "known %d" % self.numbers[name]
        gains = self.gains(kind, first, second)
        assert all(entry not in d.entries for d, entry in gains)
        refuse_if(any(len(d.entries) >= self.most for d, _ in gains), 8)
        takes = [d.needs_page(entry, self.page_size) for d, entry in gains]
        refuse_if(sum(takes) > self.pages_left, 9)
        g, new = self.block(kind)
        refuse_if(g >= self.blocks, 10)
        for (d, entry), take in zip(gains, takes):
            d.entries[entry] = len(d.entries)
            d.used = (0 if take else d.used) + len(entry)
        self.pages_left -= sum(takes)
        if new:
            self.held[kind].append(g)
        number = (g << self.width) + self.fresh[kind] % (1 << self.width)
        assert number not in self.names
        self.fresh[kind] += 1
        self.numbers[name] = number
        self.names[number] = name
        return "fresh %d" % number


def check_name(kind, first, second):
    refuse_if(kind > 3 or (kind < 2 and second), 4)
    refuse_if(len(first) + len(second) > LONGEST, 5)
    refuse_if(not (is_text(first) and is_text(second)), 6)
    refuse_if(kind == 2 and not second, 7)
