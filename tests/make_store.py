"""The store of a thousand among the stored vectors: 1,024 rows, what is removed from a full image, last-used moments, both editions, and the upgrade.

The descriptors and the expected output are made as those of make_gate.py. A case that is there for one answer, or for the rows that are kept, says
so, and what ordinary_gate.py gives is compared with that.
"""
from make_descriptors import FAY, ID, encode, grant, payload, signature, sized
from make_gate import LAST, LAST_SECOND
from make_leases import states
from make_matching import T, U
from ordinary_gate import FIRST, HEADER, LAST_MOMENT, SECOND, image_of, number, read_once, sound
from runs import ident, made, numbered, revocation

# the clock of most submissions, and the ends of validity of rows that are expired and not expired then
NOW, OVER, VALID = 2500, 2400, 3000
# the number of the descriptor that is submitted to a full image
LATEST = 99


def stored(i, end=VALID, **more):
    """A descriptor with the number in its id, valid up to the end; all of them have the same length."""
    return made(i, not_after=end, **more)


def large(i=LATEST, end=VALID):
    """One that needs as much room as three of those, and not as much as four."""
    return stored(i, end, grants=[grant(pattern=T + f"/a/{n:02}/**") for n in range(13)])


# how much longer an image is with such a one
ONE, LARGE = (SECOND.row + len(body) for body in (stored(0), large()))
assert 3 * ONE < LARGE < 4 * ONE


def kept_rows(r):
    """The numbers of the rows that an image has."""
    return [number(row.ident, 0, 2) for row in sound(r.image).rows]


def removal(r, name, rows, spare, kept, new=stored(LATEST), now=NOW):
    """A submission to an image of these rows, each a body and a moment, with so many bytes after it. Those with the kept numbers stay, in their order; where
    none are named the submission is refused."""
    before = image_of([body for body, _ in rows], spare, moments=[moment for _, moment in rows])
    r.load("image: " + name, before)
    r.submit(name, new, now=now, must=6 if kept is None else 0)
    assert r.image == before if kept is None else kept_rows(r) == kept + [LATEST], (name, kept_rows(r))
    r.find("lookup of it", ident(LATEST))


def rows_of(*rows):
    """Rows by number, end of validity and last-used moment."""
    return [(stored(i, end), moment) for i, end, moment in rows]


# ---- what is removed


def room(r):
    """Exactly enough room, and a byte less."""
    over, valid = (1, OVER, 7), (2, VALID, 7)
    removal(r, "room without a removal", rows_of(over), ONE, [1])
    removal(r, "room without a removal, and to spare", rows_of(over, valid), ONE + 100, [1, 2])
    removal(r, "a byte less, and the expired one goes", rows_of(over), ONE - 1, [])
    removal(r, "a byte less, and none is expired", rows_of(valid), ONE - 1, None)
    removal(r, "no row, and no room", [], ONE - 1, None)
    removal(r, "exactly enough room by one", rows_of(over, valid), 0, [2])
    longer = stored(LATEST, issuer_id="unis")
    removal(r, "a byte less than enough by one, and a second goes", rows_of(over, valid, (3, OVER, 8)), 0, [2], longer)
    removal(r, "a byte less than enough by one, and there is no second", rows_of(over, valid), 0, None, longer)
    three, enough = [(1, OVER, 1), (2, OVER, 2), (3, OVER, 3)], LARGE - 3 * ONE
    removal(r, "exactly enough room by three of three", rows_of(*three), enough, [], large())
    removal(r, "a byte less than enough by three of three", rows_of(*three), enough - 1, None, large())
    removal(r, "exactly enough room by three of four", rows_of(*three, (4, OVER, 4)), enough, [4], large())
    removal(r, "a byte less than enough by three of four", rows_of(*three, (4, OVER, 4)), enough - 1, [], large())
    removal(r, "a byte less than enough by three, and the fourth is valid", rows_of(*three, (4, VALID, 4)), enough - 1, None, large())
    # the image becomes shorter, and the old bytes after its end stay
    shrinking = [(large(1, OVER), 0), *rows_of(valid)]
    removal(r, "the image becomes shorter", shrinking, 0, [2])
    removal(r, "the image becomes shorter, with bytes after it", shrinking, ONE - 1, [2])
    removal(r, "the image becomes shorter, the large one last", shrinking[::-1], 100, [2])


def order(r):
    """The least recently used goes first, the earlier row on a tie."""
    for name, moments, kept in (
        ("the first was used longest ago", (7, 8, 9), [2, 3]),
        ("the second was used longest ago", (8, 7, 9), [1, 3]),
        ("the last was used longest ago", (9, 8, 7), [1, 2]),
        ("tie of three", (7, 7, 7), [2, 3]),
        ("tie of the first two", (7, 7, 6), [1, 2]),
        ("tie of the last two, used longest ago", (8, 7, 7), [1, 3]),
        ("tie of the first and the last, used longest ago", (7, 8, 7), [2, 3]),
        ("moments 0", (0, 0, 0), [2, 3]),
        ("moments above now", (NOW + 3, NOW + 2, NOW + 1), [1, 2]),
        ("a moment above now, and one that is now", (NOW + 1, NOW, NOW + 2), [1, 3]),
        ("moments 2^64 - 1, and one less", (LAST, LAST - 1, LAST), [1, 3]),
        ("moments 2^56 and 255, of which one is the other in the other byte order", (1 << 56, 255, 1 << 56), [1, 3]),
        ("moments 2^32 and 2^32 - 1", (1 << 32, (1 << 32) - 1, 1 << 32), [1, 3]),
    ):
        removal(r, name, rows_of(*((i + 1, OVER, moment) for i, moment in enumerate(moments))), 0, kept)
    # others among them
    removal(r, "valid ones were used longer ago", rows_of((1, VALID, 0), (2, OVER, 9), (3, VALID, 1)), 0, [1, 3])
    mixed = [(1, VALID, 0), (2, OVER, 3), (3, VALID, 0), (4, OVER, 2), (5, VALID, 9)]
    two = LARGE - 2 * ONE
    removal(r, "two between others", rows_of(*mixed), two, [1, 3, 5], large())
    removal(r, "one of two between others", rows_of(*mixed), LARGE - ONE, [1, 2, 3, 5], large())
    many = [(1, OVER, 5), (2, OVER, 3), (3, VALID, 1), (4, OVER, 4), (5, OVER, 3), (6, VALID, 0), (7, OVER, 5)]
    removal(r, "two of a tie", rows_of(*many), two, [1, 3, 4, 6, 7], large())
    removal(r, "two of a tie, and the next", rows_of(*many), LARGE - 3 * ONE, [1, 3, 6, 7], large())
    removal(r, "two of a tie, the next, and the first of another tie", rows_of(*many), LARGE - 3 * ONE - 1, [3, 6, 7], large())
    removal(r, "all but one", rows_of(*many[:2], *many[3:5]), LARGE - 3 * ONE, [1], large())
    removal(r, "a large one goes, and a small one that was used later stays", [(large(1, OVER), 1), *rows_of((2, OVER, 2))], 0, [2])
    removal(r, "a small one goes, and a large one would have been enough", [(large(1, OVER), 2), *rows_of((2, OVER, 1))], 100, [], large())


def expiry(r):
    """Only what is expired goes: now >= not_after."""
    for end in (NOW - 1, NOW):
        removal(r, f"not_after = now - {NOW - end}", rows_of((1, end, 0)), 0, [])
    removal(r, "not_after = now + 1", rows_of((1, NOW + 1, 0)), 0, None)
    removal(r, "of not_after = now + 1 and now the second", rows_of((1, NOW + 1, 0), (2, NOW, 9)), 0, [1])
    removal(r, "not valid yet", [(made(1, not_before=NOW + 1), 0)], 0, None)
    removal(r, "the one that is submitted is expired too", rows_of((1, OVER, 0)), 0, [], stored(LATEST, OVER))
    removal(r, "the one that is submitted is expired, and no other", rows_of((1, VALID, 0)), 0, None, stored(LATEST, OVER))
    last = made(1, issued_at=0, not_before=LAST - 1, not_after=LAST)
    removal(r, "clock 2^64 - 2, not_after 2^64 - 1", [(last, 0)], ONE - 1, None, now=LAST - 1)
    removal(r, "clock 2^64 - 1, not_after 2^64 - 1", [(last, 0)], ONE - 1, [], now=LAST)
    first = made(1, issued_at=0, not_before=0, not_after=1)
    removal(r, "clock 0, not_after 1", [(first, 0)], 0, None, now=0)
    removal(r, "clock 1, not_after 1", [(first, 0)], ONE - 1, [], now=1)
    # one after the other
    r.load("image: of three, which end one after the other", image_of([stored(i, OVER + i) for i in (1, 2, 3)], moments=[3, 2, 1]))
    for i, now, must in ((4, OVER, 6), (5, OVER + 1, 0), (6, OVER + 1, 6), (7, OVER + 3, 0), (8, OVER + 3, 0), (9, OVER + 3, 6)):
        r.submit(f"submission at {now}", stored(i), now=now, must=must)
    assert kept_rows(r) == [5, 7, 8]
    r.submit("one that was removed, at the end of those", stored(2, OVER + 2), now=VALID, must=0)
    assert kept_rows(r) == [7, 8, 2]


def refusals(r, held, new, now):
    """To a full image with an expired row: a repeat is done, other bytes under a held id are refused, and each other refusal comes first; nothing changes."""
    before = r.image
    for name, body in held:
        at = body.index(b"uni")
        r.submit(f"repeat of {name}", body, now=now, must=0)
        r.submit(f"other bytes under the id of {name}", body[:at] + b"inu" + body[at + 3 :], now=now, must=5)
    r.submit("verdict 3", new, now=now, verdict=3, must=15)
    r.submit("cut by a byte", new[:-1], now=now, must=1)
    far = made(LATEST, issued_at=0, not_before=now + 86401, not_after=now + 86402)
    r.submit("too far ahead", far, now=now, must=2)
    r.submit("no such key", new, now=now, verdict=2, must=3)
    r.submit("key not valid yet", new, now=now, valid=(now + 1, 0, 0), must=14)
    r.submit("key no longer valid", new, now=now, valid=(0, 1, now - 1), must=14)
    r.submit("signature bad", new, now=now, verdict=1, must=4)
    assert r.image == before


def full(r):
    r.load("image: full, one expired", image_of([stored(1, OVER), stored(2)], moments=[1, 2]))
    refusals(r, [("an expired one", stored(1, OVER)), ("a valid one", stored(2))], stored(LATEST), NOW)
    r.submit("and then it is stored", stored(LATEST), now=NOW, must=0)
    assert kept_rows(r) == [2, LATEST]


# ---- 1,024 rows


def small(i, end=VALID):
    """The template of a fill, nearly as short as a descriptor can be."""
    p = payload(descriptor_id=ident(i), not_after=end, grants=[grant(pattern=T + "/a")])
    return encode(p, signature(algorithm="ecdsa-p256-sha256", signature_value=b"\x01"))


def filled(template, k):
    """The id of the descriptor with the number of a fill."""
    body = numbered(template, k)
    at = read_once(body)[1]["id"]
    return body[at : at + 16]


def asked(template, k):
    """What a request for it has."""
    return dict(id=filled(template, k), resource=T + "/a")


def thousand(r):
    """1,000 rows that are valid, 3 that expire sooner, 20 that are valid, and the last."""
    early, sooner, late = small(1), small(2, OVER), small(3)
    r.lend("500,000 bytes", 500000)
    r.new("new image")
    r.fill("1,000 rows, each a second after the one before", early, 1000, step=1)
    r.fill("3 rows that expire sooner", sooner, 3, now=2100)
    r.fill("20 rows more", late, 20, now=2050)
    for name, template, k in (("1", early, 1), ("1,000", early, 1000), ("1,001", sooner, 1), ("1,023", late, 20)):
        r.find(f"lookup of row {name}", filled(template, k), must=0)
    r.submit("row 1,024", stored(5), now=OVER - 1, must=0)
    r.find("lookup of row 1,024", ident(5), must=0)
    r.submit("row 1,025, none expired", stored(6), now=OVER - 1, must=6)
    r.find("lookup of row 1,025", ident(6), must=7)
    held = [("row 1,024", stored(5))]
    refusals(r, held, stored(6), OVER - 1)
    r.submit("repeat of row 1,002, which is expired", numbered(sooner, 2), now=OVER, must=0)
    # the second of three is used, and goes last
    r.request("request to row 1,002", now=OVER - 1, must=0, **asked(sooner, 2))
    r.request("request to row 1", now=OVER - 1, must=0, **asked(early, 1))
    r.request("request to row 1,000, which was stored later than now", now=OVER - 1, must=0, **asked(early, 1000))
    refusals(r, held, stored(6), OVER)
    for i, gone in ((6, 1), (7, 3), (8, 2)):
        r.submit(f"row 1,024 in the place of row {gone} of 3", stored(i), now=OVER, must=0)
        r.find("lookup of the one that is gone", filled(sooner, gone), must=7)
    r.submit("row 1,025, none expired any more", stored(9), now=OVER, must=6)
    r.submit("row 1,025, a second before they expire", stored(9, VALID + 1), now=VALID - 1, must=6)
    r.submit("row 1,024 in the place of row 2, at the second at which they expire", stored(9, VALID + 1), now=VALID, must=0)
    r.find("lookup of row 2, which was used longest ago", filled(early, 2), must=7)
    r.find("lookup of row 1, which was used later", filled(early, 1), must=0)


def tight(r):
    """1,024 rows in a buffer that ends with them: rows and bytes are both to be made room for."""
    template = small(4)
    row = SECOND.row + len(template)
    r.lend("the bytes of 1,024 rows", HEADER + 1024 * row)
    r.new("new image")
    r.fill("1,024 rows, all at one moment", template, 1024)
    r.submit("row 1,025, none expired", stored(6), must=6)
    r.request("request to row 1", now=NOW, must=0, **asked(template, 1))
    r.submit("a longer one, for which rows 2 and 3 go", stored(6), now=VALID, must=0)
    for k, must in ((1, 0), (2, 7), (3, 7), (4, 0)):
        r.find(f"lookup of row {k}", filled(template, k), must=must)
    assert len(sound(r.image).rows) == 1023
    r.submit("one of 32,768 bytes, for which many go", sized(32768), now=VALID, must=0)
    r.find("lookup of it", ID, must=0)
    r.find("lookup of row 1", filled(template, 1), must=0)
    r.find("lookup of row 1,024", filled(template, 1024), must=0)
    # the beginning of the image changed
    n = len(sound(r.image).rows)
    for count in (n - 1, n + 1, 1024, 1025):
        r.begin(f"{count} rows in the count", r.image[:4] + count.to_bytes(2, "big"))
        r.find("lookup in it", filled(template, 1), must=16)
    r.begin(f"{n} rows in the count, as there are", r.image[:4] + n.to_bytes(2, "big"))
    r.find("lookup in it", filled(template, 1), must=0)
    body_at = HEADER + n * SECOND.row
    changed = bytearray(r.image[: body_at + len(template)])
    changed[HEADER : HEADER + 16] = filled(template, 1024)
    changed[body_at:] = numbered(template, 1024)
    r.begin("the first row and body have the id of another", bytes(changed))
    r.find("lookup in it", filled(template, 1023), must=16)


# ---- last-used moments


def moments(r):
    """A request that is granted raises the moment of its row to now, and changes nothing else."""
    three = [stored(1), stored(2), stored(3)]
    r.load("image: three rows, used at 2,100, at 5,000 and never", image_of(three, 50, moments=[2100, 5000, 0]))
    for name, i, now, ms, moment in (
        ("now is the moment", 1, 2100, 999, 2100),
        ("a second later", 1, 2101, 0, 2101),
        ("a second earlier than that, which does not lower it", 1, 2100, 0, 2101),
        ("the moment is above now", 2, 2999, 999, 5000),
        ("the first use", 3, 2000, 0, 2000),
        ("a later use", 3, 2256, 1, 2256),
    ):
        before = r.image
        r.request(name, id=ident(i), now=now, ms=ms, must=0)
        place = HEADER + SECOND.row * i - 8
        assert number(r.image, place, 8) == moment, name
        assert r.image[:place] + r.image[place + 8 :] == before[:place] + before[place + 8 :], name
    around = dict(issued_at=0, not_before=LAST_SECOND - 10, not_after=LAST_SECOND + 10)
    r.load("image: valid around the last second of the clock", image_of([made(1, **around), made(2, **around)], moments=[255, LAST]))
    r.request("clock 2^53 ms, used at 255", id=ident(1), now_ms=LAST_MOMENT, must=0)
    r.request("clock 2^53 ms, used at 2^64 - 1", id=ident(2), now_ms=LAST_MOMENT, must=0)
    r.request("clock 2^53 + 1 ms", id=ident(1), now_ms=LAST_MOMENT + 1, must=15)
    assert [row.moment for row in sound(r.image).rows] == [LAST_SECOND, LAST]


def refused_requests(i):
    """A request for the id with each refusal: its name, the answer, and what the request has."""
    q = dict(id=i, now=NOW)
    for name, must, more in (
        ("malformed", 15, dict(mode=4)),
        ("not held", 7, dict(id=ident(LATEST))),
        ("revoked", 8, dict(revoked=revocation(0, i))),
        ("not yet valid", 9, dict(now=1999)),
        ("expired", 10, dict(now=VALID)),
        ("another subject", 11, dict(fay=FAY.replace("7e21", "7e22"))),
        ("another terminal", 12, dict(terminal=U)),
        ("no grant", 13, dict(resource=T + "/b")),
        ("no such key", 14, dict(verdict=2)),
        ("key no longer valid", 14, dict(valid=(0, 1, NOW - 1))),
        ("signature bad", 4, dict(verdict=1)),
    ):
        yield name, must, {**q, **more}
    for (name, table), must in zip(states(1000 * NOW, i), (26, 23, 24, 25)):
        yield name, must, dict(leases=table, **q)


def unraised(r):
    """A request that is refused changes nothing."""
    r.load("image: a row that was never used", image_of([stored(1)], 50))
    before = r.image
    for name, must, q in refused_requests(ident(1)):
        r.request(name, must=must, **q)
    assert r.image == before
    r.request("and then it is granted", id=ident(1), now=NOW, must=0)
    assert r.image != before


# ---- editions


def first_edition(r):
    """An image of edition 1 is for requests and lookups."""
    two = [stored(1), stored(2)]
    for name, bodies in (("no body", []), ("two bodies", two), ("64 bodies", [stored(i) for i in range(1, 65)])):
        before = image_of(bodies, 600, FIRST)
        n = len(bodies)
        r.load(f"image of edition 1: {name}", before)
        r.find("lookup of the last", ident(n or 1), must=0 if n else 7)
        r.find("lookup of another", ident(LATEST), must=7)
        r.request("request for the last", id=ident(n or 1), now=NOW, must=0 if n else 7)
        r.request("request for another", id=ident(LATEST), must=7)
        r.submit("submission", stored(LATEST), must=16)
        assert r.image == before
    r.load("image of edition 1: two bodies", image_of(two, 600, FIRST))
    r.request("expired", id=ident(1), now=VALID, must=10)
    r.request("signature bad", id=ident(1), verdict=1, must=4)
    r.submit("repeat", stored(1), must=16)
    r.submit("other bytes under a held id", stored(1, OVER), must=16)
    r.submit("no descriptor", b"", must=16)
    r.submit("verdict 3", stored(3), verdict=3, must=15)
    r.submit("no such key", stored(3), verdict=2, must=16)
    r.new("new image in it")
    r.submit("submission", stored(LATEST), must=0)
    r.load("image of edition 1: 65 bodies", image_of([stored(i) for i in range(1, 66)], 600, FIRST))
    r.find("lookup", ident(1), must=16)
    r.request("request", id=ident(1), must=16)


def unknown_editions(r):
    for edition in (0, 3, 4, 255, 256, 257, 258, 512, 65535):
        for n in (0, 1):
            s = image_of([stored(1)][:n], 600)
            r.load(f"edition {edition}, {n} rows", edition.to_bytes(2, "big") + s[2:])
            r.find("lookup", ident(1), must=16)
            r.request("request", id=ident(1), must=16)
            r.submit("submission", stored(2), must=16)


# ---- the upgrade


def upgraded(r, name, bodies, after=0):
    """Of bodies, from an image with so many bytes after it, to a buffer that is exactly long enough."""
    old, second = image_of(bodies, after, FIRST), image_of(bodies)
    r.lend(f"buffer for {name}, a byte too short", len(second) - 1)
    r.upgrade(f"upgrade of {name}, a byte too short", old, must=17)
    r.lend(f"buffer for {name}", len(second))
    r.upgrade(f"upgrade of {name}", old, must=0)
    assert r.image == second


def upgrades(r):
    one, two = [stored(1)], [stored(1), large(2, OVER)]
    upgraded(r, "no body", [])
    upgraded(r, "one body", one)
    upgraded(r, "two bodies, and 700 bytes after them", two, 700)
    upgraded(r, "64 bodies", [stored(i) for i in range(1, 65)])
    r.find("lookup of the last", ident(64), must=0)
    r.request("request for the first", id=ident(1), now=NOW, must=0)
    r.submit("one more, and none is expired", stored(LATEST), now=NOW, must=6)
    r.submit("one more, for which row 2 goes, as the first was used", stored(LATEST), now=VALID, must=0)
    assert kept_rows(r) == [1, *range(3, 65), LATEST]
    old = image_of(two, 0, FIRST)
    r.lend("a longer buffer", 3000)
    r.upgrade("upgrade of two bodies, to a longer buffer", old, must=0)
    r.submit("one more", stored(3), must=0)
    r.upgrade("upgrade of two bodies, over an image of three", old, must=0)
    assert kept_rows(r) == [1, 2]
    r.upgrade("upgrade of no body, over an image of two", image_of([], 0, FIRST), must=0)
    r.find("lookup", ident(1), must=7)


def refused_upgrades(r):
    two = [stored(1), stored(2)]
    old, end = image_of(two, 0, FIRST), len(image_of(two, 0, FIRST))
    faults = [
        ("no byte", b""),
        ("7 bytes", old[:7]),
        ("edition 2", image_of(two)),
        ("edition 2 without a row", image_of([])),
        ("edition 0", b"\x00\x00" + old[2:]),
        ("edition 3", b"\x00\x03" + old[2:]),
        ("mode edition 2", old[:3] + b"\x02" + old[4:]),
        ("a row more in the count", old[:5] + b"\x03" + old[6:]),
        ("a mask", old[:32] + b"\x02" + old[33:]),
        ("an offset", old[:27] + b"\x00" + old[28:]),
        ("the last byte cut off", old[: end - 1]),
        ("one id twice", image_of([stored(1), stored(1, OVER)], 0, FIRST)),
        ("a body with too long a period", image_of([made(1, not_after=2000 + 7776001)], 0, FIRST)),
        ("65 bodies", image_of([stored(i) for i in range(1, 66)], 0, FIRST)),
    ]
    r.load("a buffer with room", b"\x66" * 1200)
    before = r.image
    for name, bytes_ in faults:
        r.upgrade(f"upgrade: {name}", bytes_, must=16)
    assert r.image == before
    r.load("no byte as buffer", b"")
    r.upgrade("upgrade of two bodies, no byte as buffer", old, must=17)
    for name, bytes_ in faults[:3]:
        r.upgrade(f"upgrade: {name}, no byte as buffer", bytes_, must=16)
    r.load("7 bytes as buffer", b"\x66" * 7)
    r.upgrade("upgrade of no body, 7 bytes as buffer", image_of([], 0, FIRST), must=17)


def store(r):
    r.groups(
        ("Room for a submission", room),
        ("Least recently used first", order),
        ("Only what is expired", expiry),
        ("A full image", full),
        ("1,024 rows", thousand),
        ("1,024 rows and no byte more", tight),
        ("Last-used moments", moments),
        ("Requests that raise no moment", unraised),
        ("Edition 1", first_edition),
        ("Unknown editions", unknown_editions),
        ("Upgrades", upgrades),
        ("Upgrades that are refused", refused_upgrades),
    )
