"""The lease steps among the stored vectors: source 001's published test vectors, each boundary and each limit, malformed tables, and the order of
the steps.

The descriptors and the expected output are made as those of make_gate.py, by the independent encoder and by ordinary_gate.py.
"""
from datetime import datetime

from make_descriptors import FAY, ID, encode, payload
from make_gate import LAST, LAST_SECOND
from make_matching import T, U
from ordinary_gate import DAY, LAST_MOMENT, LENGTHS_END, MOST_ALLOWED, image_of, lease, number
from runs import ident, made, revocation

# a lease that is not too early from 2,095,000 ms on, active up to 2,402,000 and stale up to 2,462,000
FINE = dict(last_sync=2_100_000, ttl=300, grace=60, skew=5000, tolerance=2000)


def row(i=ID, flag=0, zero=bytes(7), **more):
    """A row of the lease table."""
    return i + bytes([flag]) + zero + b"".join(n.to_bytes(8, "big") for n in {**FINE, **more}.values())


# ---- source 001's test vectors

# by source 001's names of the states
STATES = {"ACTIVE": 0, "FUTURE": 23, "STALE": 24, "EXPIRED": 25}
# the ttl and the grace that they have, in seconds; the tolerance and the future skew that they name, in milliseconds
PUBLISHED = dict(ttl=86400, grace=300, skew=5000, tolerance=5000)
ISSUED = "2024-01-15T10:00:00Z"
# name, last sync, now, status
TEST_VECTORS = [
    ("TV-01: ACTIVE, should grant access", ISSUED, "2024-01-15T15:00:00Z", "ACTIVE"),
    ("TV-02: STALE, TTL elapsed, within grace, should require sync", ISSUED, "2024-01-16T10:02:00Z", "STALE"),
    ("TV-03: EXPIRED, TTL and GracePeriod elapsed, should deny", ISSUED, "2024-01-16T10:10:00Z", "EXPIRED"),
    ("TV-04: FUTURE, lastSync set far in future, should deny", "2030-01-15T10:00:00Z", "2024-01-15T15:00:00Z", "FUTURE"),
    ("TV-05: no prior sync, the host lends a row whose last sync is issuanceDate", ISSUED, "2024-01-15T12:00:00Z", "ACTIVE"),
    ("TV-05: no prior sync, the host lends no row, and the id is decided as without leases", None, "2024-01-15T12:00:00Z", "ACTIVE"),
]


def milliseconds(text):
    """A published moment in milliseconds."""
    return 1000 * int(datetime.fromisoformat(text.replace("Z", "+00:00")).timestamp())


def published(r):
    issued = milliseconds(ISSUED) // 1000
    r.load("8,000 bytes", b"\x99" * 8000)
    r.new("new image")
    for i in range(1, 6):
        body = made(i, issued_at=issued, not_before=issued, not_after=issued + 30 * DAY)
        r.submit(f"TV-0{i}: stored, issued on {ISSUED}", body, now=issued)
    for name, last_sync, now, status in TEST_VECTORS:
        i, now_ms = ident(int(name[3:5])), milliseconds(now)
        table = row(i, last_sync=milliseconds(last_sync), **PUBLISHED) if last_sync else b""
        assert lease(table, i, now_ms)[0] == STATES[status], name
        r.request(name, id=i, now_ms=now_ms, session=3600, leases=table)


# ---- boundaries


def edges(last_sync, ttl, grace, skew, tolerance):
    """The clock at both sides of each boundary of a lease."""
    end = last_sync + 1000 * ttl + tolerance
    yield "last sync - skew - 1", last_sync - skew - 1
    yield "last sync - skew", last_sync - skew
    yield "the last active millisecond", end
    yield "one after the last active", end + 1
    yield "the last stale millisecond", end + 1000 * grace
    yield "one after the last stale", end + 1000 * grace + 1


def boundaries(r):
    r.load("4,000 bytes", b"\x88" * 4000)
    r.new("new image")
    r.submit("stored, valid from 2,000 to 3,000", encode())
    r.submit("stored, valid from 0 to 90 days", made(2, issued_at=0, not_before=0, not_after=90 * DAY))
    leases = [
        ("a lease", {}),
        ("no skew", dict(skew=0)),
        ("no tolerance", dict(tolerance=0)),
        ("no ttl", dict(ttl=0)),
        ("no grace", dict(grace=0)),
        ("no ttl, no grace, no tolerance", dict(ttl=0, grace=0, tolerance=0)),
        ("a ttl of 1 s", dict(ttl=1, tolerance=0)),
        ("a grace of 1 s", dict(grace=1)),
        ("a skew and a tolerance of 1 ms", dict(skew=1, tolerance=1)),
    ]
    for what, change in leases:
        numbers = {**FINE, **change}
        for where, now_ms in edges(**numbers):
            r.request(f"{what}: {where}", now_ms=now_ms, leases=row(**numbers))
    r.request("a lease: at its last sync", now_ms=FINE["last_sync"], leases=row())
    r.request("a lease: a session up to not_after", now_ms=FINE["last_sync"], session=LAST, leases=row())
    # last sync - skew below 0, and at 0
    for what, last_sync, skew in (("below 0", 999, 1000), ("0", 1000, 1000), ("1", 1001, 1000)):
        for now_ms in (0, 1):
            table = row(ident(2), last_sync=last_sync, skew=skew)
            r.request(f"last sync - skew is {what}, clock {now_ms} ms", id=ident(2), now_ms=now_ms, leases=table)
    far = dict(last_sync=0, ttl=0, grace=90 * DAY, tolerance=0)
    r.request("last sync 0, a skew of a day", id=ident(2), now_ms=0, leases=row(ident(2), **{**far, "skew": MOST_ALLOWED}))
    r.request("stale for nearly 90 days", id=ident(2), now_ms=90_000 * DAY - 1, leases=row(ident(2), **far))


# ---- limits


# the numbers of a row with their limits, which are allowed; and what else the row has, so that the limit is seen in the answer
LIMITS = [
    ("last_sync", LAST_MOMENT, {}),
    ("ttl", LENGTHS_END - 1, {}),
    ("grace", LENGTHS_END - 1, dict(last_sync=2_000_000)),
    ("skew", MOST_ALLOWED, dict(last_sync=2_500_000 + MOST_ALLOWED)),
    ("tolerance", MOST_ALLOWED, {}),
]


def limits(r):
    for name, limit, rest in LIMITS:
        for what, n in (("at its limit", limit), ("past its limit", limit + 1), ("2^63", 1 << 63), ("2^64 - 1", LAST)):
            r.request(f"{name} {what}", now=2500, leases=row(**{**rest, name: n}))
            r.request(f"{name} {what}, of another id", now=2500, leases=row(last_sync=2_500_000) + row(bytes(16), **{**rest, name: n}))
    least = dict(last_sync=0, ttl=0, grace=0, skew=0, tolerance=0)
    r.request("each number at its limit", now=2500, leases=row(**{name: limit for name, limit, _ in LIMITS}))
    r.request("each number 0", now=2500, leases=row(**least))


def clocks(r):
    around = dict(issued_at=0, not_before=LAST_SECOND - 10, not_after=LAST_SECOND + 10)
    r.submit("stored, valid around the last second of the clock", made(3, **around), now=LAST_SECOND)
    late = dict(id=ident(3), session=0)
    largest = {name: limit for name, limit, _ in LIMITS}
    rows = [
        ("no table", b""),
        ("a row of another id", row()),
        ("last sync then", row(ident(3), **{**FINE, "last_sync": LAST_MOMENT})),
        ("last sync then, no length", row(ident(3), last_sync=LAST_MOMENT, ttl=0, grace=0, skew=0, tolerance=0)),
        ("every number at its limit", row(ident(3), **largest)),
        ("a skew of a day", row(ident(3), last_sync=LAST_MOMENT, skew=MOST_ALLOWED)),
        ("the last millisecond of a stale lease", row(ident(3), last_sync=LAST_MOMENT - 362_000)),
        ("last sync 0, the longest ttl and grace", row(ident(3), **{**largest, "last_sync": 0})),
    ]
    for what, table in rows:
        r.request(f"clock 2^53 ms, {what}", now_ms=LAST_MOMENT, leases=table, **late)
        r.request(f"clock 2^53 - 1 ms, {what}", now_ms=LAST_MOMENT - 1, leases=table, **late)
        r.request(f"clock 2^53 + 1 ms, {what}", now_ms=LAST_MOMENT + 1, leases=table, **late)
    r.request("clock 2^64 - 1 ms, no table", now_ms=LAST, **late)
    r.request("clock 2^64 - 1 ms, a row", now_ms=LAST, leases=row(ident(3)), **late)
    # the clock in seconds is rounded down, also where the lease says something in the same second
    for ms in (0, 1, 999):
        r.request(f"last second, and {ms} ms", now=2999, ms=ms, leases=row(last_sync=2_999_001, ttl=0, skew=0, tolerance=0))
        r.request(f"before the first second, and {ms} ms", now=1999, ms=ms, leases=row(last_sync=1_999_001, skew=0))
        r.request(f"first second, and {ms} ms", now=2000, ms=ms, session=0, leases=row(last_sync=2_000_001, ttl=0, tolerance=0, skew=0))


# ---- tables


def turned(rows):
    """The rows in an order in which neighbours are far apart."""
    return [rows[(389 * i + 57) % len(rows)] for i in range(len(rows))]


def tables(r):
    now = dict(now=2200)
    other = row(bytes(16))
    r.request("no row", **now)
    r.request("a row of another id, which is revoked", leases=row(bytes(16), flag=1), **now)
    r.request("an id that differs in the first byte", leases=row(b"\x01" + ID[1:], flag=1), **now)
    r.request("an id that differs in the last byte", leases=row(ID[:-1] + b"\x00", flag=1), **now)
    r.request("second of two", leases=other + row(), **now)
    r.request("first of two", leases=row() + other, **now)
    r.request("second of three, the others revoked", leases=row(bytes(16), flag=1) + row() + row(ident(7), flag=1), **now)
    # the form of a row
    for flag in (1, 2, 3, 128, 255):
        r.request(f"flag {flag}", leases=row(flag=flag), **now)
        r.request(f"flag {flag}, of another id", leases=row() + row(bytes(16), flag=flag), **now)
    for at in range(7):
        zero = bytes(at) + b"\x01" + bytes(6 - at)
        r.request(f"zero byte {at} is 1", leases=row(zero=zero), **now)
        r.request(f"zero byte {at} is 1, of another id", leases=row() + row(bytes(16), zero=zero), **now)
    # lengths
    for n in (1, 16, 24, 63, 65, 127, 129):
        r.request(f"table length {n}", leases=(row() + other + row(ident(7)))[:n], **now)
    # two rows with one id
    same = [
        ("the same row twice", row() + row()),
        ("the id twice, the first revoked", row(flag=1) + row()),
        ("the id twice, the second revoked", row() + row(flag=1)),
        ("the id twice, another between", row() + other + row()),
        ("another id twice", other + other),
        ("another id twice, before the id", other + other + row()),
        ("another id twice, the id between", other + row() + other),
        ("another id twice, after the id", row() + other + other),
        ("another id twice, the id not in the table", row(ident(7)) + other + row(ident(7), flag=1)),
    ]
    for name, table in same:
        r.request(name, leases=table, **now)
    # many rows, the id's among them
    rows = [row(ident(1000 + i), flag=i % 2) for i in range(1023)] + [row()]
    rows.sort()
    r.request("1,024 rows in ascending order", leases=b"".join(rows), **now)
    r.request("1,024 rows in another order", leases=b"".join(turned(rows)), **now)
    twice = turned(rows)
    twice[1000] = row(twice[20][:16])
    r.request("1,024 rows in another order, an id twice, far apart", leases=b"".join(twice), **now)
    few = rows[:128]
    r.request("128 rows in descending order", leases=b"".join(few[::-1]), **now)
    r.request("128 rows in ascending order, the last with the first id", leases=b"".join(few + few[:1]), **now)
    r.request("128 rows in ascending order, the last one malformed", leases=b"".join(few[:127]) + row(b"\xff" * 16, flag=2), **now)


def inside(r):
    """An id that stands in the numbers of a row of another id. It is one from before: one of version 7 would be too large a ttl there."""
    i = b"\x00\x02" + bytes(13) + b"\x02"
    table = row(flag=1, last_sync=number(i, 0, 8), ttl=number(i, 8, 8))
    assert table[24:40] == i
    r.load("image from before", image_of([encode(payload(descriptor_id=i))], 40))
    r.request("the id stands in the numbers of a row of another id", id=i, now=2200, leases=table)


# ---- the order of the steps


def states(now_ms, i=ID):
    """A row for each state in which a lease is refused at the clock, by its name."""
    length, grace = 1000 * FINE["ttl"] + FINE["tolerance"], 1000 * FINE["grace"]
    yield "lease revoked", row(i, flag=1, last_sync=now_ms)
    yield "lease future", row(i, last_sync=now_ms + FINE["skew"] + 1)
    yield "lease stale", row(i, last_sync=now_ms - length - 1)
    yield "lease expired", row(i, last_sync=now_ms - length - grace - 1)


def order(r):
    earlier = [
        ("malformed", dict(mode=4)),
        ("not held", dict(id=ident(9))),
        ("revoked", dict(revoked=revocation(0))),
        ("not yet valid", dict(now_ms=1_999_999)),
        ("expired", dict(now_ms=3_000_000)),
        ("another subject", dict(fay=FAY.replace("7e21", "7e22"))),
        ("another terminal", dict(terminal=U)),
        ("no grant", dict(resource=T + "/b")),
        ("no such key", dict(verdict=2)),
        ("key no longer valid", dict(valid=(0, 1, 2499))),
        ("signature bad", dict(verdict=1)),
    ]
    for state, table in states(2_500_000):
        r.request(f"{state} alone", now=2500, leases=table)
    for name, fault in earlier:
        asked = {"now_ms": 2_500_000, **fault}
        for state, table in states(asked["now_ms"], asked.get("id", ID)):
            r.request(f"{name}, and {state}", leases=table, **asked)
    for state, table in [*states(2_500_000)][1:]:
        r.request(f"lease revoked, and {state}", now=2500, leases=table[:16] + b"\x01" + table[17:])
    short = row()[:63]
    r.request("table malformed, and not held", id=ident(9), leases=short)
    r.request("table malformed, and revoked", revoked=revocation(0), leases=short)
    r.request("table malformed, and signature bad", verdict=1, leases=short)
    r.request("table malformed, and another argument too", mode=4, leases=short)
    r.load("no image", b"\x00" * 100)
    r.request("no image, and table malformed", leases=short)
    r.request("no image, and clock 2^53 + 1 ms", now_ms=LAST_MOMENT + 1)
    r.request("no image, and lease revoked", leases=row(flag=1))


def leases(r):
    r.groups(
        ("Source 001's test vectors", published),
        ("Boundaries of a lease", boundaries),
        ("Limits of a row", limits),
        ("The clock in milliseconds", clocks),
        ("Lease tables", tables),
        ("Lease steps in order", order),
        ("An id in a row of another id", inside),
    )
