"""Calls on one image that stays from call to call, with what is expected of them: the answers and images of ordinary_gate.py."""
from functools import lru_cache

from make_descriptors import FAY, ID, encode, payload
from make_matching import T
from ordinary_gate import SECOND, find, image_of, number, over, read_once, request, sound, submission_refusal, submit, upgrade
from records import FILL, FIND, LEND, NEW, REQUEST, SUBMIT, UPGRADE, summed
from uuids import version_7

# how many bytes the program has for the image, and for the template of a fill
STORE, TEMPLATE = 1 << 19, 1024
# fills of at most so many descriptors are also made by that many submissions
CHECKED = 8
NEW_IMAGE = bytes.fromhex("0002000100000000")

sum_of = lru_cache(maxsize=64)(summed)


def must_be(name, answer, must):
    """The answer is the one that the case is there for, where it says one."""
    assert must is None or answer == must, f"{name}: {answer}, and not {must}"


class Run:
    """Calls, with the image that they leave."""

    def __init__(self, v):
        self.v, self.image, self.store = v, b"", bytes(STORE)

    def groups(self, *groups):
        """Calls, each group of them under its heading."""
        for heading, calls in groups:
            self.v.heading("## " + heading)
            calls(self)

    def shown(self):
        rows = number(self.image, 4, 2) if len(self.image) >= 6 else 0
        return f"; {len(self.image)} bytes, rows {rows}, sum {sum_of(self.image)}"

    def load(self, name, s):
        self.store = over(self.store, self.image)
        self.image = s
        self.v.add(LEND, name, self.shown(), [len(s)], [s])

    def begin(self, name, s):
        """The image begins with these bytes, and has as many as before."""
        self.image = over(self.image, s)
        self.v.add(LEND, name, self.shown(), [len(self.image)], [s])

    def lend(self, name, n):
        assert n <= STORE, name
        self.store = over(self.store, self.image)
        self.image = self.store[:n]
        self.v.add(LEND, name, self.shown(), [n])

    def new(self, name):
        answer = 17 if len(self.image) < 8 else 0
        if answer == 0:
            self.image = over(self.image, NEW_IMAGE)
        self.v.add(NEW, name, f": {answer}{self.shown()}")

    def submit(self, name, body, now=2000, verdict=0, valid=(0, 0, 0), must=None):
        answer, self.image = submit(self.image, body, now, verdict, valid)
        must_be(name, answer, must)
        self.v.add(SUBMIT, name, f": {answer}{self.shown()}", [now, verdict, *valid], [body])

    def fill(self, name, template, count, now=2000, step=0):
        """So many submissions of the template, with other ids, each later than the one before. All of them are stored, and nothing is removed."""
        at = read_once(template)[1]["id"]
        bodies = [numbered(template, k + 1) for k in range(count)]
        rows = sound(self.image).rows
        held = {row.ident for row in rows}
        assert len(template) <= TEMPLATE and not any(b[at : at + 16] in held for b in bodies)
        assert submission_refusal(self.image, bodies[0], now, 0, (0, 0, 0)) == 0, name
        moments = [row.moment for row in rows] + [now + k * step for k in range(count)]
        filled = image_of([row.body for row in rows] + bodies, moments=moments)
        assert len(rows) + count <= SECOND.most and len(filled) <= len(self.image)
        after = over(self.image, filled)
        if count <= CHECKED:
            for body, moment in zip(bodies, moments[len(rows) :]):
                self.image = submit(self.image, body, moment, 0, (0, 0, 0))[1]
            assert self.image == after, name
        self.image = after
        self.v.add(FILL, name, f": 0{self.shown()}", [count, at, now, step], [template])

    def upgrade(self, name, old, must=None):
        answer, n, self.image = upgrade(old, self.image)
        must_be(name, answer, must)
        self.v.add(UPGRADE, name, f": {answer}, len {n}{self.shown()}", [], [old])

    def find(self, name, ident, must=None):
        answer = find(self.image, ident)
        must_be(name, answer_of(answer), must)
        self.v.add(FIND, name, answer, [], [ident])

    def request(self, name, now=2000, ms=0, must=None, **more):
        """A request so many milliseconds after a second, or at now_ms."""
        q = dict(id=ID, fay=FAY, terminal=T, resource=T + "/a/b", mode=0, now_ms=1000 * now + ms, session=100)
        q.update(revoked=b"", leases=b"", verdict=0, valid=(0, 0, 0))
        q.update(more)
        numbers = [q["mode"], q["now_ms"], q["session"], q["verdict"], *q["valid"]]
        strings = [q["id"], q["fay"].encode(), q["terminal"].encode(), q["resource"].encode(), q["revoked"], q["leases"]]
        answer, self.image = request(self.image, q)
        must_be(name, answer_of(answer), must)
        self.v.add(REQUEST, name, answer + self.shown(), numbers, strings)


def answer_of(text):
    """The first number of an answer that is written."""
    return int(text[2:].split(",")[0])


def ident(i):
    """A UUID of version 7 that begins with the number."""
    return version_7(i.to_bytes(2, "big") + bytes(13) + bytes([i % 251]))


def numbered(template, k):
    """The template of a fill with the number in the last four bytes of its id."""
    at = read_once(template)[1]["id"]
    return template[: at + 12] + k.to_bytes(4, "big") + template[at + 16 :]


def revocation(moment, i=ID):
    """A row of the revocation list, of the id that most requests have."""
    return i + moment.to_bytes(8, "big")


def made(i, **more):
    return encode(payload(descriptor_id=ident(i), **more))
