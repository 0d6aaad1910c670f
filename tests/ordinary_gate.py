"""An ordinary image, lookup, submission, upgrade and request, written from documents 01 and 02. It knows nothing of the Rattle code: what the stored
vectors of make_gate.py, make_leases.py, make_store.py and make_ids.py expect is from here.
"""
import re
from collections import namedtuple
from functools import lru_cache

from make_descriptors import fields, is_too_long, read
from make_matching import UUID, equal_names, is_resource, matches
from records import answered
from uuids import is_version_7, number_of

DAY = 86400
# of a lease table: the length of a row; the last moment of a last sync and of the clock, in ms; the end of ttl and grace, in s; the most of
# skew and tolerance, in ms
LEASE_ROW = 64
LAST_MOMENT = 2**53
LENGTHS_END = 2**32
MOST_ALLOWED = 1000 * DAY

# an edition of the image: its number, the length of a row, how many rows it may have
Edition = namedtuple("Edition", "number row most")
FIRST = Edition(1, 32, 64)
SECOND = Edition(2, 40, 1024)
HEADER = 8
# the last-used moment of a row of edition 2: where it stands, and its length
MOMENT_AT, MOMENT = 32, 8

# a row: its id, where its body lies, the body, and its last-used moment; that of edition 1 has the moment 0
Row = namedtuple("Row", "ident at body moment")
# a sound image: its edition and its rows
Image = namedtuple("Image", "edition rows")

read_once = lru_cache(maxsize=None)(read)


def number(s, at, w):
    return int.from_bytes(s[at : at + w], "big")


def mask_of(f):
    mask = 0
    for g in f["grants"]:
        mask |= g["mask"]
    return mask


def edition_of(s):
    """The edition of an image whose header may be one, or nothing."""
    if len(s) < HEADER or number(s, 2, 2) != 1 or number(s, 6, 2) != 0:
        return None
    edition = {1: FIRST, 2: SECOND}.get(number(s, 0, 2))
    return edition if edition and number(s, 4, 2) <= edition.most else None


def sound(s):
    """The sound image that the bytes begin with, or nothing."""
    edition = edition_of(s)
    if edition is None:
        return None
    n = number(s, 4, 2)
    at, rows, seen = HEADER + edition.row * n, [], set()
    if len(s) < at:
        return None
    for i in range(n):
        row = s[HEADER + edition.row * i :][: edition.row]
        ident, length = row[:16], number(row, 20, 4)
        if number(row, 16, 4) != at or at + length > len(s) or ident in seen:
            return None
        body = s[at : at + length]
        answer, f = read_once(body)
        if answer != 0 or body[f["id"] : f["id"] + 16] != ident or row[24] != mask_of(f) or row[25:32] != bytes(7):
            return None
        rows.append(Row(ident, at, body, number(row, MOMENT_AT, MOMENT)))
        seen.add(ident)
        at += length
    return Image(edition, rows)


def image_of(bodies, room=0, edition=SECOND, moments=None, change=()):
    """The image of bodies with their last-used moments, 0 where none is named; then so many bytes more, and some bytes of it changed."""
    n = len(bodies)
    at, rows = HEADER + edition.row * n, []
    for b, moment in zip(bodies, moments or [0] * n):
        f = read_once(b)[1] or {"id": 0, "grants": []}
        row = b[f["id"] : f["id"] + 16] + at.to_bytes(4, "big") + len(b).to_bytes(4, "big") + bytes([mask_of(f)]) + bytes(7)
        rows.append((row + moment.to_bytes(MOMENT, "big"))[: edition.row])
        at += len(b)
    header = b"".join(k.to_bytes(2, "big") for k in (edition.number, 1, n, 0))
    s = bytearray(header + b"".join(rows) + b"".join(bodies) + bytes([0xEE]) * room)
    for place, value in change:
        s[place] = value
    return bytes(s)


def over(s, image):
    """The buffer with the image at its start: what it has after the image's end stays."""
    return image + s[len(image) :]


def key_open(now, valid):
    start, bounded, until = valid
    return start <= now and (not bounded or now <= until)


def fits(rows, body, room):
    """Whether an image of the rows and one body more is allowed, and has room in a buffer of so many bytes."""
    size = HEADER + SECOND.row * (len(rows) + 1) + sum(len(r.body) for r in rows) + len(body)
    return len(rows) < SECOND.most and size <= room


def made_room(rows, body, now, room):
    """The rows that are kept so that the body fits, or nothing: expired ones go, least recently used first, the earlier on a tie."""
    kept = list(rows)
    expired = [r for r in rows if now >= read_once(r.body)[1]["not_after"]]
    for victim in sorted(expired, key=lambda r: r.moment):
        if fits(kept, body, room):
            break
        kept.remove(victim)
    return kept if fits(kept, body, room) else None


def text_at(s, at, n):
    """The text of so many bytes at a place."""
    return s[at : at + n].decode()


def ids_enter(body, f):
    """Whether a submission takes the ids of a descriptor: UUIDs of version 7, those of the fay and of the terminal in lower case (document 02 §6)."""
    texts = [text_at(body, f["fay"], 40), text_at(body, f["terminal"], 45)]
    uuids = [number(body, f["id"], 16)] + [number_of(text.split(":")[1]) for text in texts]
    return all(map(is_version_7, uuids)) and all(text == text.lower() for text in texts)


def submission_refusal(s, body, now, verdict, valid):
    """The number of the first step that fails before the image is looked through for the id, or 0."""
    if verdict > 2:
        return 15
    held = sound(s)
    if held is None or held.edition != SECOND:
        return 16
    f = fields(body)
    if f is None or not ids_enter(body, f):
        return 1
    if is_too_long(f) or f["not_before"] > now + DAY:
        return 2
    if verdict == 2:
        return 3
    if not key_open(now, valid):
        return 14
    return 4 if verdict == 1 else 0


def submit(s, body, now, verdict, valid):
    """The answer, and the image after."""
    answer = submission_refusal(s, body, now, verdict, valid)
    if answer:
        return answer, s
    rows, at = sound(s).rows, read_once(body)[1]["id"]
    for row in rows:
        if row.ident == body[at : at + 16]:
            return (0 if row.body == body else 5), s
    kept = made_room(rows, body, now, len(s))
    if kept is None:
        return 6, s
    return 0, over(s, image_of([r.body for r in kept] + [body], moments=[r.moment for r in kept] + [now]))


def upgrade(old, s):
    """The answer, the length that was written, and the second buffer after."""
    held = sound(old)
    if held is None or held.edition != FIRST:
        return 16, 0, s
    image = image_of([r.body for r in held.rows])
    if len(s) < len(image):
        return 17, 0, s
    return 0, len(image), over(s, image)


def find(s, ident):
    if len(ident) != 16:
        return answered(15)
    held = sound(s)
    if held is None:
        return answered(16)
    for row in held.rows:
        if row.ident == ident:
            return answered(0, body=(len(row.body), row.at))
    return answered(7)


def used(s, ident, now):
    """The image after a request that was granted: the moment of the row with the id is not below now."""
    edition, rows = sound(s)
    if edition != SECOND:
        return s
    i = [row.ident for row in rows].index(ident)
    at = HEADER + SECOND.row * i + MOMENT_AT
    return s[:at] + max(rows[i].moment, now).to_bytes(MOMENT, "big") + s[at + MOMENT :]


def is_revoked(rows, ident, now):
    """Whether a row of the revocation list has the id and a moment that is not after now."""
    return any(rows[at : at + 16] == ident and number(rows, at + 16, 8) <= now for at in range(0, len(rows), 24))


def lease_rows(table):
    """The rows of a lease table as (id, flag, the seven bytes after it, last sync, ttl, grace, skew, tolerance)."""
    rows = [table[at : at + LEASE_ROW] for at in range(0, len(table), LEASE_ROW)]
    return [(row[:16], row[16], row[17:24], *(number(row, at, 8) for at in range(24, LEASE_ROW, 8))) for row in rows]


def is_lease_table(table):
    """Whether a table has whole rows, each of its form, and no two with one id."""
    if len(table) % LEASE_ROW:
        return False
    rows = lease_rows(table)
    for _, flag, zero, last_sync, ttl, grace, skew, tolerance in rows:
        if flag > 1 or zero != bytes(7) or last_sync > LAST_MOMENT:
            return False
        if max(ttl, grace) >= LENGTHS_END or max(skew, tolerance) > MOST_ALLOWED:
            return False
    return len({row[0] for row in rows}) == len(rows)


def lease(table, ident, now_ms):
    """The answer of the lease steps, and the margin: L + 1,000 T + E - N. An id without a row passes, with margin 0."""
    for row, flag, _, last_sync, ttl, grace, skew, tolerance in lease_rows(table):
        if row == ident:
            end = last_sync + 1000 * ttl + tolerance
            if flag == 1:
                return 26, 0
            if now_ms < last_sync - skew:
                return 23, 0
            if now_ms <= end:
                return 0, end - now_ms
            if now_ms <= end + 1000 * grace:
                return 24, end - now_ms
            return 25, 0
    return 0, 0


def serving(f, q):
    """The grants with the mode, a matching pattern and no constraint pair: how many levels each matches by equal names, its place, its mask."""
    for i, g in enumerate(f["grants"]):
        pattern = g["pattern"][2].decode()
        if g["mask"] >> q["mode"] & 1 and matches(pattern, q["resource"]) and g["constraints"][1] == 0:
            yield equal_names(pattern, q["resource"]), i, g["mask"]


def most_exact(grants):
    """The grant with most equal names, the earliest on a tie."""
    return min(grants, key=lambda g: (-g[0], g[1]))


def is_formed(q):
    """Whether the arguments of a request are of their form."""
    return (
        q["verdict"] <= 2
        and q["now_ms"] <= LAST_MOMENT
        and q["mode"] <= 3
        and len(q["id"]) == 16
        and re.match(rf"fay:{UUID}\Z", q["fay"])
        and re.match(rf"terminal:{UUID}\Z", q["terminal"])
        and is_resource(q["resource"].encode())
        and len(q["revoked"]) % 24 == 0
        and is_lease_table(q["leases"])
    )


def decision(s, q):
    """The answer of a request, and its other numbers."""
    now = q["now_ms"] // 1000
    if not is_formed(q):
        return 15, {}
    held = sound(s)
    if held is None:
        return 16, {}
    body = next((row.body for row in held.rows if row.ident == q["id"]), None)
    if body is None:
        return 7, {}
    f = read_once(body)[1]
    if is_revoked(q["revoked"], q["id"], now):
        return 8, {}
    if now < f["not_before"]:
        return 9, {}
    if now >= f["not_after"]:
        return 10, {}
    if text_at(body, f["fay"], 40) != q["fay"]:
        return 11, {}
    if text_at(body, f["terminal"], 45) != q["terminal"]:
        return 12, {}
    grants = list(serving(f, q))
    if not grants:
        return 13, {}
    if q["verdict"] == 2 or not key_open(now, q["valid"]):
        return 14, {}
    if q["verdict"] == 1:
        return 4, {}
    answer, margin = lease(q["leases"], q["id"], q["now_ms"])
    if answer:
        return answer, dict(grant=0, mask=0, session_end=0, margin=margin)
    _, place, mask = most_exact(grants)
    return 0, dict(grant=place, mask=mask, session_end=min(f["not_after"], now + q["session"]), margin=margin)


def request(s, q):
    """What a request is answered, and the image after."""
    answer, numbers = decision(s, q)
    after = used(s, q["id"], q["now_ms"] // 1000) if answer == 0 else s
    return answered(answer, **numbers), after
