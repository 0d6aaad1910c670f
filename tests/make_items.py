"""The items among the stored vectors: RFC 8949's published examples, bytes at each limit, and places. tests/items.txt has the bytes in
hexadecimal, each with its name.

The expected output is from the reader below, which is written from document 01 and knows nothing of the Rattle code; what it says of
RFC 8949's examples is compared with what Debian's python3-cbor2 decodes.
"""
import os

import cbor2

from records import ITEM, answered

UNSIGNED, BYTES, TEXT, ARRAY, MAP = 0, 2, 3, 4, 5
PLACES = [("inside", 1), ("at the end", 3), ("past the end", 4), ("the largest place", 2**64 - 1)]


# ---- an ordinary reader, by document 01


class Bad(Exception):
    pass


def need(ok):
    if not ok:
        raise Bad


class Items:
    """Items of some bytes from a place on."""

    def __init__(self, s, at=0):
        self.s, self.at = s, at

    def head(self):
        need(self.at < len(self.s))
        b = self.s[self.at]
        major, info = b >> 5, b & 31
        if info < 24:
            self.at += 1
            return major, info
        need(info < 28)
        w = 1 << (info - 24)
        need(self.at + 1 + w <= len(self.s))
        n = int.from_bytes(self.s[self.at + 1 : self.at + 1 + w], "big")
        need(n >= [24, 256, 65536, 1 << 32][info - 24])
        self.at += 1 + w
        return major, n

    def item(self):
        """The kind, the number, and a string's content with its place."""
        kind, n = self.head()
        need(kind in (UNSIGNED, BYTES, TEXT, ARRAY, MAP))
        if kind not in (BYTES, TEXT):
            return kind, n, 0, b""
        need(self.at + n <= len(self.s))
        start = self.at
        self.at += n
        content = self.s[start : self.at]
        if kind == TEXT:
            try:
                content.decode("utf-8", "strict")
            except UnicodeDecodeError:
                raise Bad from None
        return kind, n, start, content


# ---- the cases


def read(v, name, s, place, rest=False):
    """The item at the place, and the items after it where the rest is asked for."""
    r, name = Items(s, place), name + "\n"
    while True:
        at = r.at
        try:
            kind, n, start, content = r.item()
            expected = answered(0, kind=kind, number=n, content=(len(content), start), next=r.at)
        except Bad:
            content, expected, rest = b"", answered(1), False
        v.add(ITEM, f"{name}    at {at}", expected + (": " + content.hex() if content else ""), [at], [s])
        if not rest or r.at == len(s):
            return
        name = ""


def decoded(s):
    """Whether cbor2 finds in the bytes what the reader does."""
    value = cbor2.loads(s)
    try:
        kind, n, _, content = Items(s).item()
    except Bad:
        return True
    if kind == UNSIGNED:
        return value == n
    if kind in (ARRAY, MAP):
        return len(value) == n
    return value == (content.decode() if kind == TEXT else content)


def items(v):
    with open(os.path.join(os.path.dirname(os.path.abspath(__file__)), "items.txt")) as f:
        lines = f.read().splitlines()
    published = False
    for line in lines:
        if line.startswith("#"):
            published = "RFC 8949" in line
            v.heading("#" + line)
            continue
        s = bytes.fromhex(line.split(" ")[0])
        assert not published or decoded(s), line
        read(v, line, s, 0, rest=True)
    v.heading("## Places")
    s = bytes.fromhex("011818")
    for name, place in PLACES:
        read(v, f"{s.hex()} {name}", s, place)
