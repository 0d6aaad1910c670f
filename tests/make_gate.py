"""The gate among the stored vectors: calls on one image that stays from call to call. make_store.py has those of a full store.

The descriptors are made by the same independent encoder as those of make_descriptors.py. The expected output is from the ordinary image,
submission and request of ordinary_gate.py.
"""
from make_descriptors import FAY, ID, MODES, encode, grant, payload
from make_matching import T, U
from ordinary_gate import DAY, FIRST, HEADER, LAST_MOMENT, SECOND, image_of, number
from runs import ident, made, revocation

LAST = 2**64 - 1
# the second of the last millisecond that a request's clock may have
LAST_SECOND = LAST_MOMENT // 1000


def images(r):
    """New images, and each rule of the image broken once."""
    base = encode()
    # its id is one from before, of no version
    other = encode(payload(descriptor_id=bytes(16), grants=[grant(["write"]), grant(["read", "configure"])]))
    r.load("no byte is lent", b"")
    r.new("new image in no byte")
    r.submit("submission to no byte", base)
    r.request("request to no byte")
    r.load("7 bytes", b"\xff" * 7)
    r.new("new image in 7 bytes")
    r.load("8 bytes", b"\xff" * 8)
    r.submit("submission to bytes that are no image", base)
    r.new("new image in 8 bytes")
    r.find("lookup in an empty image", ident(1))
    r.submit("submission to an image of 8 bytes", base)
    for edition in (SECOND, FIRST):
        lookups(r, edition, [base, other])
        broken_images(r, edition, [base, other])


def lookups(r, edition, two):
    r.load(f"image of edition {edition.number} of two bodies, and 40 bytes after", image_of(two, 40, edition))
    r.find("lookup of the first", ID)
    r.find("lookup of the second", bytes(16))
    r.find("lookup of another", ident(9))
    r.find("lookup of 15 bytes", bytes(15))
    r.find("lookup of 17 bytes", bytes(17))
    r.load("the image alone", image_of(two, edition=edition))
    r.find("lookup in it", bytes(16))


def changed_bytes(edition, good):
    """A name and changes of the bytes of an image of two bodies, each of which breaks it but for the last."""
    n, first = edition.number, HEADER
    second, bodies = first + edition.row, first + 2 * edition.row
    yield "image edition 0", [(1, 0)]
    yield "image edition 3", [(1, 3)]
    yield f"image edition {3 - n}, and rows of edition {n}", [(1, 3 - n)]
    yield f"image edition {256 + n}", [(0, 1)]
    yield "mode edition 0", [(3, 0)]
    yield "mode edition 2", [(3, 2)]
    yield "a row less in the count", [(5, 1)]
    yield "a row more in the count", [(5, 3)]
    yield f"{edition.most + 1} rows in the count", [(4, (edition.most + 1) // 256), (5, (edition.most + 1) % 256)]
    yield "256 rows more in the count", [(4, 1)]
    yield "header not zero, first", [(6, 1)]
    yield "header not zero, last", [(7, 1)]
    yield "id of the first row", [(first, 1)]
    yield "id of the second row, last byte", [(second + 15, 1)]
    yield "offset off by one", [(first + 19, bodies + 1)]
    yield "offset of the second off by a row", [(second + 19, (number(good, second + 16, 4) + edition.row) % 256)]
    yield "offset's highest byte", [(first + 16, 1)]
    yield "length one less", [(first + 23, number(good, first + 20, 4) % 256 - 1)]
    yield "length one more", [(second + 23, number(good, second + 20, 4) % 256 + 1)]
    yield "length's highest byte", [(first + 20, 255)]
    yield "mask without a mode", [(second + 24, 1)]
    yield "mask with a mode more", [(first + 24, 3)]
    yield "mask 0", [(first + 24, 0)]
    for i in range(25, 32):
        yield f"row not zero, byte {i}", [(first + i, 1)]
    yield "first byte of a body", [(bodies, 0xA2)]
    yield "last byte of a body's key", [(bodies + 8, 0)]
    yield "a byte after the image", [(len(good), 1)]


def broken_images(r, edition, two):
    good = image_of(two, edition=edition)
    end, bodies = len(good), HEADER + 2 * edition.row
    for name, change in changed_bytes(edition, good):
        r.load(name, image_of(two, 40, edition, change=change))
        r.find("lookup in it", ID)
        r.submit("submission to it", made(5))
        r.request("request to it")
    base = two[0]
    r.load("the same body twice", image_of([base, base], 40, edition))
    r.find("lookup in it", ID)
    r.load("two bodies with one id", image_of([base, encode(payload(not_after=2999))], 40, edition))
    r.find("lookup in it", ID)
    r.load("a body with too long a period", image_of([encode(payload(not_after=2000 + 7776001))], 40, edition))
    r.find("lookup in it", ID)
    for cut in (1, len(two[1]), len(two[1]) + 1, end - bodies, end - bodies + 1, end - HEADER + 1):
        r.load(f"cut by {cut} bytes", good[: end - cut])
        r.find("lookup in it", ID)


def submissions(r):
    base = encode()
    r.load("1,000 bytes", b"\xee" * 1000)
    r.new("new image")
    r.submit("first", base)
    r.find("lookup of it", ID)
    r.submit("the same bytes again", base)
    r.submit("other bytes under the id", encode(payload(not_after=2999)))
    r.submit("second", made(2))
    r.find("lookup of the first", ID)
    r.find("lookup of the second", ident(2))
    r.submit("no room for a third", made(3))
    # each step failing alone
    fine = made(4, grants=[grant(["execute"], T + "/x")])
    r.lend("1,500 bytes", 1500)
    r.submit("verdict 3", fine, verdict=3)
    r.submit("verdict 2^64 - 1", fine, verdict=LAST)
    r.submit("no descriptor", b"")
    r.submit("a descriptor cut by a byte", fine[:-1])
    r.submit("period of 7,776,001", made(4, not_after=2000 + 7776001))
    far = made(5, issued_at=0, not_before=5 * DAY, not_after=6 * DAY)
    r.submit("begins one second too far ahead", far, now=4 * DAY - 1)
    r.submit("no such key", fine, verdict=2)
    r.submit("key not valid yet", fine, valid=(2001, 0, 0))
    r.submit("key no longer valid", fine, valid=(0, 1, 1999))
    r.submit("signature bad", fine, verdict=1)
    # the earlier of two
    r.submit("verdict 3, no descriptor", b"", verdict=3)
    r.submit("no descriptor, no such key", b"", verdict=2)
    r.submit("too far ahead, no such key", far, now=4 * DAY - 1, verdict=2)
    r.submit("no such key, key not valid yet", fine, verdict=2, valid=(2001, 0, 0))
    r.submit("key not valid yet, signature bad", fine, verdict=1, valid=(2001, 0, 0))
    r.submit("signature bad, id held with other bytes", encode(payload(not_after=2999)), verdict=1)
    r.submit("signature bad, id held with the same bytes", base, verdict=1)
    r.load("no image", b"\x00" * 100)
    r.submit("verdict 3, no image", fine, verdict=3)
    r.submit("no image, no descriptor", b"")
    r.submit("no image, no such key", fine, verdict=2)
    # both sides of each line
    r.load("4,000 bytes", b"\xdd" * 4000)
    r.new("new image")
    r.submit("not_before = now + 86,400", far, now=4 * DAY)
    r.submit("key valid from now on", made(6), valid=(2000, 0, 0))
    r.submit("key valid until now", made(7), valid=(0, 1, 2000))
    r.submit("no valid_until, whatever stands for it", made(8), valid=(0, 0, 1))
    r.submit("clock 0, not_before 86,400", made(9, issued_at=0, not_before=DAY, not_after=DAY + 1), now=0)
    late = made(10, issued_at=0, not_before=LAST - 1, not_after=LAST)
    r.submit("not_before 2^64 - 2, clock 2^64 - 1 - 86,401", late, now=LAST - 1 - DAY - 1)
    r.submit("not_before 2^64 - 2, clock 2^64 - 2 - 86,400", late, now=LAST - 1 - DAY)
    r.submit("clock 2^64 - 1, key valid until then", made(11), now=LAST, valid=(LAST, 1, LAST))
    # exactly enough room, and one byte less
    size = len(image_of([base]))
    r.load("one byte too short", b"\x77" * (size - 1))
    r.new("new image")
    r.submit("no room", base)
    r.lend("one byte more", size)
    r.submit("room", base)
    r.find("lookup of it", ID)
    # more rows than an image of edition 1 may have
    bodies = [made(100 + i, grants=[grant(["read", "write", "execute", "configure"][i % 4 : i % 4 + 1], T + f"/r/{i}")]) for i in range(65)]
    r.lend("32,000 bytes", 32000)
    r.new("new image")
    for i in range(65):
        r.submit(f"row {i + 1}", bodies[i], must=0)
    r.submit("row 1 again", bodies[0])
    r.submit("row 65 again", bodies[64])
    r.submit("row 1 with other bytes", made(100))
    for i in (0, 1, 31, 62, 63, 64):
        r.find(f"lookup of row {i + 1}", ident(100 + i))
    r.find("lookup of another", ident(165))
    r.request("request to row 64", id=ident(163), resource=T + "/r/63", mode=3)
    r.request("request to row 65", id=ident(164), resource=T + "/r/64")
    r.request("request to row 1", id=ident(100), resource=T + "/r/0")


def requests(r):
    many = [
        grant(["write"], T + "/a/*"),
        grant(["read"], T + "/a/b", constraints={"k": "v"}),
        grant(["read", "execute"], T + "/a/b", constraints={}),
        grant(["read"], T + "/a/*"),
        grant(["configure"], T + "/**"),
        grant(["execute"], T + "/" + "n" * 200 + "/*"),
    ]
    base = encode(payload(grants=many))
    r.load("4,000 bytes", b"\xaa" * 4000)
    r.new("new image")
    r.submit("stored", base)
    r.submit("another", made(2, subject_fay_id=FAY.replace("7e21", "7e22")))
    # granted
    r.request("the first grant without a constraint pair")
    r.request("mode 1", mode=1)
    r.request("mode 2", mode=2)
    r.request("mode 3", mode=3)
    r.request("a later grant", resource=T + "/a/c")
    r.request("** takes three names", resource=T + "/x/y/z", mode=3)
    r.request("the other descriptor", id=ident(2), fay=FAY.replace("7e21", "7e22"))
    # each refusal alone
    r.request("verdict 3", verdict=3)
    r.request("mode 4", mode=4)
    r.request("mode 2^64 - 1", mode=LAST)
    r.request("id of 15 bytes", id=bytes(15))
    r.request("id of 17 bytes", id=ID + b"\x10")
    r.request("no fay id", fay="fay:x")
    r.request("no terminal id", terminal="terminal:x")
    r.request("resource without a level", resource=T)
    r.request("resource with an empty level", resource=T + "/a//b")
    r.request("resource with a wildcard", resource=T + "/a/*")
    r.request("revocation list of 23 bytes", revoked=bytes(23))
    r.request("id not held", id=ident(3))
    r.request("revoked", revoked=revocation(0))
    r.request("not yet valid, a millisecond before", now=1999, ms=999)
    r.request("expired", now=3000)
    r.request("another subject", fay=FAY.replace("7e21", "7e22"))
    r.request("the subject's id in other letters", fay=FAY.replace("ab", "AB"))
    r.request("another terminal", terminal=U)
    r.request("resource of another terminal", resource=U + "/a/b")
    r.request("no grant has the mode for it", resource=T + "/b", mode=1)
    r.request("no grant matches", resource=T + "/a/b/c")
    r.request("only a prefix of a name matches", resource=T + "/ab/b")
    r.request("no such key", verdict=2)
    r.request("key not valid yet, a millisecond before", ms=999, valid=(2001, 0, 0))
    r.request("key no longer valid", valid=(0, 1, 1999))
    r.request("signature bad", verdict=1)
    # each adjacent pair
    r.request("malformed, and id not held", id=ident(3), mode=4)
    r.request("not held, and in the list", id=ident(3), revoked=revocation(0, ident(3)))
    r.request("revoked, and not yet valid", revoked=revocation(0), now=1999)
    r.request("revoked and expired", revoked=revocation(0), now=3000)
    r.request("not yet valid, and another subject", now=1999, fay=FAY.replace("7e21", "7e22"))
    r.request("expired and wrong subject", now=3000, fay=FAY.replace("7e21", "7e22"))
    r.request("another subject, and another terminal", fay=FAY.replace("7e21", "7e22"), terminal=U)
    r.request("another terminal, and no grant", terminal=U, resource=U + "/a/b")
    r.request("no grant, and no such key", resource=T + "/a/b/c", verdict=2)
    r.request("key not valid, and signature bad", valid=(2001, 0, 0), verdict=1)
    # both sides of each line
    r.request("now = not_before", now=2000)
    r.request("now = not_after - 1, its last millisecond", now=2999, ms=999)
    r.request("now = not_after", now=3000)
    r.request("key valid from now on", valid=(2000, 0, 0))
    r.request("key valid until now, the last millisecond", ms=999, valid=(0, 1, 2000))
    r.request("no valid_until, whatever stands for it", valid=(0, 0, 1))
    long = T + "/" + "n" * 200 + "/"
    r.request("resource of 256 bytes", resource=long + "m" * (256 - len(long)), mode=2)
    r.request("resource of 257 bytes", resource=long + "m" * (257 - len(long)), mode=2)
    # the session's end
    r.request("session of 0", session=0)
    r.request("session of 0, from the last millisecond of a second", ms=999, session=0)
    r.request("session one second before not_after", session=999)
    r.request("session up to not_after", session=1000)
    r.request("session one second past not_after", session=1001)
    r.request("session of 2^64 - 1", session=LAST)
    r.load("4,000 bytes", b"\xaa" * 4000)
    r.new("new image")
    around = dict(issued_at=0, not_before=LAST_SECOND - 10, not_after=LAST_SECOND + 10)
    r.submit("stored, valid around the last second of the clock", encode(payload(**around)), now=LAST_SECOND)
    r.request("clock 2^53 ms, session of 1", now_ms=LAST_MOMENT, session=1)
    r.request("clock 2^53 ms, session of 2^64 - 1", now_ms=LAST_MOMENT, session=LAST)
    r.request("clock 2^53 ms, a session up to 2^64 - 1", now_ms=LAST_MOMENT, session=LAST - LAST_SECOND)
    r.request("clock 2^53 ms, a session up to 2^64", now_ms=LAST_MOMENT, session=LAST - LAST_SECOND + 1)
    r.request("clock 2^53 - 1 ms, session of 0", now_ms=LAST_MOMENT - 1, session=0)
    r.request("clock 2^53 + 1 ms", now_ms=LAST_MOMENT + 1, session=0)
    r.request("clock 2^63 ms", now_ms=1 << 63, session=0)
    r.request("clock 2^64 - 1 ms", now_ms=LAST, session=0)
    latest = dict(issued_at=0, not_before=LAST - 1, not_after=LAST)
    r.submit("stored, valid in the last second but one of 64 bits", made(12, **latest), now=LAST - 1)
    r.request("clock 2^53 ms, not_before 2^64 - 2", id=ident(12), now_ms=LAST_MOMENT)
    # order in the image
    r.load("no image", b"\x00" * 100)
    r.request("no image, malformed", mode=4)
    r.request("no image, id not held", id=ident(3))


def revocation_lists(r):
    """Moments before, at and after the clock, ids that recur, places in the list, and lengths."""
    other = revocation(0, bytes(16))
    r.load("4,000 bytes", b"\xaa" * 4000)
    r.new("new image")
    r.submit("stored, valid from 2,000 to 3,000", encode())
    around = dict(issued_at=0, not_before=LAST_SECOND - 10, not_after=LAST_SECOND + 10)
    r.submit("stored, valid around the last second of the clock", made(2, **around), now=LAST_SECOND)
    # one row, at clock 2,000
    r.request("no row")
    r.request("moment = now - 1", revoked=revocation(1999))
    r.request("moment = now", revoked=revocation(2000))
    r.request("moment = now + 1, a millisecond before it", ms=999, revoked=revocation(2001))
    r.request("moment 0", revoked=revocation(0))
    r.request("moment 2^64 - 1", revoked=revocation(LAST))
    r.request("moment 1, which is 2^56 in the other byte order", revoked=revocation(1))
    r.request("moment 2^56, which is 1 in the other byte order", revoked=revocation(1 << 56))
    r.request("moment 2^32", revoked=revocation(1 << 32))
    # the clock at its ends
    r.request("clock 0, moment 0", now=0, revoked=revocation(0))
    r.request("clock 0, moment 1", now=0, revoked=revocation(1))
    r.request("clock 2^53 ms, moment in its second", id=ident(2), now_ms=LAST_MOMENT, revoked=revocation(LAST_SECOND, ident(2)))
    r.request("clock 2^53 ms, moment in the next second", id=ident(2), now_ms=LAST_MOMENT, revoked=revocation(LAST_SECOND + 1, ident(2)))
    r.request("clock 2^53 ms, moment 2^64 - 1", id=ident(2), now_ms=LAST_MOMENT, revoked=revocation(LAST, ident(2)))
    # an id that recurs
    r.request("one row in the future, then one past", revoked=revocation(2001) + revocation(1999))
    r.request("one row past, then one in the future", revoked=revocation(1999) + revocation(2001))
    r.request("both past, the later first", revoked=revocation(1999) + revocation(1998))
    r.request("both past, the earlier first", revoked=revocation(1998) + revocation(1999))
    r.request("both in the future, the later first", revoked=revocation(2002) + revocation(2001))
    r.request("both in the future, the earlier first", revoked=revocation(2001) + revocation(2002))
    r.request("the same row twice", revoked=revocation(2000) + revocation(2000))
    r.request("three rows, the second from now on", revoked=revocation(2001) + revocation(2000) + revocation(LAST))
    r.request("in the future, and another id past", revoked=revocation(2001) + other)
    r.request("another id past, and in the future", revoked=other + revocation(2001))
    # places in the list
    r.request("second of three", revoked=other + revocation(2000) + other)
    r.request("last of two", revoked=other + revocation(2000))
    r.request("an id that differs in the first byte", revoked=revocation(0, b"\x01" + ID[1:]))
    r.request("an id that differs in the last byte", revoked=revocation(0, ID[:-1] + b"\x00"))
    r.request("the id stands from byte 8 of a row on", revoked=bytes(8) + ID + bytes(24))
    r.request("the id stands across two rows", revoked=bytes(16) + ID + bytes(16))
    # lengths
    for n in (1, 15, 16, 23, 25, 47, 49):
        r.request(f"list length {n}", revoked=(revocation(0) * 3)[:n])
    r.request("list length 48, two other ids", revoked=other + other)
    r.request("list length 48, the id three times without a moment, which is two rows", revoked=ID * 3)
    # before the steps on the period
    r.request("revoked from now on, and expired", now=3000, revoked=revocation(3000))
    r.request("revoked in the future, and expired", now=3000, revoked=revocation(3001))
    r.request("revoked from now on, and not yet valid", now=1999, revoked=revocation(1999))
    r.request("revoked in the future, and not yet valid", now=1999, revoked=revocation(2000))


# masks that differ and have read, so that the mask shows which grant is named
READING = [["read"], ["read", "write"], ["read", "execute"], ["read", "configure"], ["read", "write", "execute"], MODES]


def reading(*patterns):
    """Grants to read by these levels, each with a mask of its own."""
    return [grant(READING[i], T + levels) for i, levels in enumerate(patterns)]


def serving_grants():
    """A name, grants, and what differs from a request to read T/a/b/c."""
    yield "one grant", reading("/a/**"), {}
    # broad and exact, in each order
    yield "exact under broad, broad first", reading("/**", "/a/b/c"), {}
    yield "exact under broad, broad last", reading("/a/b/c", "/**"), {}
    yield "each more exact than the one before", reading("/**", "/a/**", "/a/b/**", "/a/b/c"), {}
    yield "each less exact than the one before", reading("/a/b/c", "/a/b/**", "/a/**", "/**"), {}
    yield "the most exact in the middle", reading("/a/**", "/a/b/c", "/*/b/c"), {}
    yield "one name, one name, two names", reading("/*/*/c", "/a/**", "/a/*/c"), {}
    yield "the exact one is for another path", reading("/a/**", "/a/b/d"), {}
    yield "the exact one is for a longer path", reading("/a/**", "/a/b/c/d"), {}
    yield "the exact one is for a shorter path", reading("/a/**", "/a/b"), {}
    # ties
    yield "tie of three names", reading("/**", "/a/b/c", "/a/b/c", "/a/b/c"), {}
    yield "tie of two names, after one name", reading("/a/**", "/a/*/c", "/a/b/*", "/*/b/c"), {}
    yield "tie of one name, after none", reading("/*/*/*", "/*/*/c", "/a/*/*", "/*/b/*"), {}
    yield "tie of one name, ** first", reading("/a/**", "/a/*/*", "/*/b/*"), {}
    yield "tie of one name, ** last", reading("/*/*/c", "/a/**"), {}
    # "*" and "**" count 0
    yield "tie of no name, ** first", reading("/**", "/*/*/*", "/*/**"), {}
    yield "tie of no name, * first", reading("/*/*/*", "/*/**", "/**"), {}
    yield "three * before one name and **", reading("/*/*/*", "/a/**"), {}
    yield "one name and two * before two names and **", reading("/a/*/*", "/a/b/**"), {}
    yield "** for names that stand before it", reading("/*/a/*", "/a/**"), dict(resource=T + "/a/a/a")


def passed_over():
    """The same, where a more exact grant does not serve."""
    broad, exact = T + "/a/**", T + "/a/b/c"
    constrained = grant(READING[1], exact, constraints={"k": "v"})
    yield "the more exact one has another mode", [grant(["read"], broad), grant(["write"], exact)], {}
    yield "the other mode is asked for", [grant(["read"], broad), grant(["write"], exact)], dict(mode=1)
    yield "the more exact one has every other mode, and is first", [grant(MODES[1:], exact), grant(["read"], broad)], {}
    yield "the more exact one has a constraint pair", [*reading("/a/**"), constrained], {}
    yield "the more exact one has a constraint pair, and is first", [constrained, *reading("/a/**")], {}
    yield "the more exact one has constraints without a pair", [*reading("/a/**"), grant(READING[2], exact, constraints={})], {}
    yield "the two most exact of three do not serve", [grant(MODES[1:], exact), constrained, *reading("/a/b/*")], {}
    yield "the most exact one alone, with a constraint pair", [constrained], {}
    yield "the most exact one is named, and the signature is bad", reading("/**", "/a/b/c"), dict(verdict=1)


def many_names():
    """The same, with paths of 100 and 105 names."""
    asked = dict(resource=T + "/n" * 100)
    yield "100 names, after 99 and **", reading("/n" * 99 + "/**", "/n" * 100), asked
    yield "99 names and *, after 98 and **", reading("/n" * 98 + "/**", "/n" * 99 + "/*", "/n" * 98 + "/*/*"), asked
    yield "tie of 99 names", reading("/**", "/*" + "/n" * 99, "/n" * 99 + "/*", "/n" * 99 + "/**"), asked
    yield "105 names, after 100 * and 5 names", reading("/*" * 100 + "/n" * 5, "/n" * 105), dict(resource=T + "/n" * 105)


def most_exact_grants(r):
    """Requests that several grants serve: the one with most levels matched by equal names is named, the first of those."""
    r.lend("40,000 bytes", 40000)
    r.new("new image")
    for i, (name, grants, more) in enumerate([*serving_grants(), *passed_over(), *many_names()]):
        r.submit(name + ", stored", made(i, grants=grants))
        r.request(name, **{"id": ident(i), "resource": T + "/a/b/c", **more})
    # of 8 levels each is a name or "*", in every way: the number's bits say which
    every = [grant(READING[i % 6], T + "".join("/n" if i >> bit & 1 else "/*" for bit in range(8))) for i in range(256)]
    r.lend("65,536 bytes", 65536)
    r.new("new image")
    for i, order, grants in ((1, "forwards", every), (2, "backwards", every[::-1])):
        r.submit(f"256 grants {order}, stored", made(i, grants=grants))
        r.request(f"256 grants {order}, 8 names", id=ident(i), resource=T + "/n" * 8)
        r.request(f"256 grants {order}, 7 names", id=ident(i), resource=T + "/n" * 7 + "/m")
        r.request(f"256 grants {order}, a name", id=ident(i), resource=T + "/m" * 3 + "/n" + "/m" * 4)
        r.request(f"256 grants {order}, no name", id=ident(i), resource=T + "/m" * 8)
        r.request(f"256 grants {order}, tie of 7 names", id=ident(i), resource=T + "/n" * 8, mode=1)


def gate(r):
    r.groups(
        ("Images", images),
        ("Submissions", submissions),
        ("Requests", requests),
        ("Revocation lists", revocation_lists),
        ("Most exact grants", most_exact_grants),
    )
