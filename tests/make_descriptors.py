"""The descriptors among the stored vectors.

The bytes are made by an independent encoder, Debian's python3-cbor2 with canonical=True; broken ones are changed afterwards. The expected
output is from the reader below, which is written from document 01 and knows nothing of the Rattle code.
"""
import re

import cbor2

from make_items import Bad, Items, need
from make_matching import T, U, UUID, is_pattern
from records import DESCRIPTOR, GRANT, answered, summed, written
from uuids import version_7

FAY = "fay:01927b34-7e21-7c4d-a89f-1234567890ab"
# the descriptor id where none is named
ID = version_7(bytes(range(16)))
MODES = ["read", "write", "execute", "configure"]
# the longest period, in seconds
LONGEST = 7776000
PAYLOAD = "grants metadata? issued_at issuer_id not_after grantor_id? not_before terminal_id descriptor_id subject_fay_id".split()


# ---- an ordinary reader, by document 01


class Reader(Items):
    def number(self, major):
        m, n = self.head()
        need(m == major)
        return n

    def string(self, major, lo, hi):
        kind, n, start, c = self.item()
        need(kind == major and lo <= n <= hi)
        return start, n, c

    def text(self, lo=0, hi=10**9):
        return self.string(3, lo, hi)

    def table(self, keys):
        """The keys of a map in their order, '?' marks an optional one: yields each that is there."""
        count, seen = self.number(5), 0
        for k in keys:
            name = k.rstrip("?").encode()
            before = self.at
            try:
                there = self.text()[2] == name
            except Bad:
                there = False
            if not there:
                self.at = before
                need(k.endswith("?"))
                continue
            seen += 1
            yield k.rstrip("?")
        need(count == seen)

    def pairs(self, most):
        at = self.at
        n, last = self.number(5), b""
        need(n <= most)
        for _ in range(n):
            start = self.at
            self.text(1, 64)
            key = self.s[start : self.at]
            need(last < key)
            last = key
            self.text(0, 256)
        return at, n

    def grant(self):
        g = {"constraints": (0, 0)}
        for k in self.table(["modes", "constraints?", "resource_pattern"]):
            if k == "modes":
                g["modes"] = self.at
                n = self.number(4)
                need(1 <= n <= 4)
                got = []
                for _ in range(n):
                    m = self.text()[2].decode()
                    need(m in MODES and m not in got)
                    got.append(m)
                g["mask"] = sum(1 << MODES.index(m) for m in got)
            elif k == "constraints":
                g["constraints"] = self.pairs(8)
            else:
                start, n, c = self.text()
                need(is_pattern(c))
                g["pattern"] = (start, n, c)
        return g

    def uuid_text(self, kind):
        """The place of a fay id or a terminal id, and the text."""
        at, _, text = self.text()
        need(re.match(rf"{kind}:{UUID}\Z", text.decode("latin-1")))
        return at, text

    def payload(self):
        """The fields of a payload."""
        start, f = self.at, {"grantor": (0, 0), "metadata": (0, 0)}
        for k in self.table(PAYLOAD):
            if k == "grants":
                n = self.number(4)
                need(1 <= n <= 256)
                f["grants"] = [self.grant() for _ in range(n)]
            elif k == "metadata":
                f["metadata"] = self.pairs(16)
            elif k in ("issued_at", "not_after", "not_before"):
                f[k] = self.number(0)
            elif k == "issuer_id":
                f["issuer"] = self.text(1, 128)[:2]
            elif k == "grantor_id":
                f["grantor"] = self.text(1, 128)[:2]
            elif k == "terminal_id":
                f["terminal"], terminal = self.uuid_text("terminal")
            elif k == "descriptor_id":
                f["id"] = self.string(2, 16, 16)[0]
            else:
                f["fay"], _ = self.uuid_text("fay")
        f["payload"] = (start, self.at - start)
        need(all(g["pattern"][2][:45] == terminal for g in f["grants"]))
        need(f["issued_at"] <= f["not_before"] < f["not_after"])
        return f

    def signature(self):
        """The fields of a signature."""
        f = {}
        for k in self.table(["key_id", "algorithm", "signature_value"]):
            if k == "key_id":
                f["key"] = self.text(1, 64)[:2]
            elif k == "algorithm":
                a = self.text()[2]
                need(a in (b"ed25519", b"ecdsa-p256-sha256"))
                f["algorithm"] = int(a != b"ed25519")
            else:
                f["signature"] = self.string(2, 1, 72)[:2]
                need(f["algorithm"] == 1 or f["signature"][1] == 64)
        return f


def fields(s):
    """The fields of a descriptor that is right, whatever its period is, or nothing."""
    r, f = Reader(s), {}
    try:
        need(len(s) <= 32768)
        for k in r.table(["payload", "version", "signature"]):
            if k == "payload":
                f.update(r.payload())
            elif k == "version":
                need(r.number(0) == 1)
            else:
                f.update(r.signature())
        need(r.at == len(s))
    except Bad:
        return None
    return f


def is_too_long(f):
    """Whether the period is longer than 90 days."""
    return f["not_after"] - f["not_before"] > LONGEST


def read(s):
    """0 with the fields, 1 or 2."""
    f = fields(s)
    if f is None:
        return 1, None
    return (2, None) if is_too_long(f) else (0, f)


# ---- descriptors


def grant(modes=("read",), pattern=T + "/a/*", **more):
    return {"modes": list(modes), "resource_pattern": pattern, **more}


def payload(**more):
    p = {
        "grants": [grant()],
        "issued_at": 1000,
        "issuer_id": "uni",
        "not_after": 3000,
        "not_before": 2000,
        "terminal_id": T,
        "descriptor_id": ID,
        "subject_fay_id": FAY,
    }
    p.update(more)
    return {k: v for k, v in p.items() if v is not None}


def signature(**more):
    g = {"key_id": "k1", "algorithm": "ed25519", "signature_value": bytes(64)}
    g.update(more)
    return {k: v for k, v in g.items() if v is not None}


def dumped(value):
    return cbor2.dumps(value, canonical=True)


def encode(p=None, g=None, **more):
    d = {"payload": payload() if p is None else p, "version": 1, "signature": signature() if g is None else g}
    d.update(more)
    return dumped({k: v for k, v in d.items() if v is not None})


def sized(n):
    """A descriptor of exactly n bytes: 250 grants, the first with a longer pattern, and an issuer that takes up what is left."""
    grants = [grant(pattern=T + "/" + "g" * 51) for _ in range(250)]
    for first in (51, 151):
        grants[0]["resource_pattern"] = T + "/" + "g" * first
        for issuer in range(1, 129):
            s = encode(payload(grants=grants, issuer_id="i" * issuer))
            if len(s) == n:
                return s
    raise SystemExit("no such size")


def swap(s, old, new):
    assert s.count(old) == 1, (s.count(old), old)
    return s.replace(old, new)


def vectors():
    base = encode()
    pairs = lambda n, key="k{:02}", value="v": {key.format(i): value for i in range(n)}
    two = [grant(["write", "read"], T + "/a/*", constraints={"k": "v", "z": ""}), grant(["configure"], T + "/b/**")]
    upper = T.replace("7000", "7ABC")
    ok = [
        ("smallest", base),
        ("every optional field", encode(payload(metadata={"a": "b", "bb": "ü"}, grantor_id="prof", grants=two))),
        ("empty optional maps", encode(payload(metadata={}, grants=[grant(constraints={})]))),
        ("grantor_id alone", encode(payload(grantor_id="prof"))),
        ("four modes", encode(payload(grants=[grant(["configure", "execute", "write", "read"])]))),
        ("256 grants", encode(payload(grants=[grant(["execute"], T + f"/g/{i}") for i in range(256)]))),
        ("32,768 bytes", sized(32768)),
        (
            "texts at their limits",
            encode(payload(issuer_id="i" * 128, grantor_id="g" * 128, metadata={"k" * 64: "v" * 256}), signature(key_id="x" * 64)),
        ),
        ("texts of one character", encode(payload(issuer_id="i", grantor_id="g", metadata={"k": ""}), signature(key_id="x"))),
        ("16 pairs of metadata", encode(payload(metadata=pairs(16)))),
        ("8 pairs of constraints", encode(payload(grants=[grant(constraints=pairs(8))]))),
        ("keys of different lengths", encode(payload(metadata={"b": "1", "aa": "2", "ccc": "3"}))),
        ("pattern of 256 bytes", encode(payload(grants=[grant(pattern=T + "/" + "a" * 210)]))),
        (
            "later patterns of every kind",
            encode(payload(grants=[grant(pattern=T + "/" + levels) for levels in ("a", "a" * 210, "/".join("n" * 105), "**", "*/b/**", "*")])),
        ),
        (
            "upper-case hexadecimal digits",
            encode(payload(subject_fay_id=FAY.upper().replace("FAY", "fay"), terminal_id=upper, grants=[grant(pattern=upper + "/a")])),
        ),
        ("signature of ecdsa, 1 byte", encode(g=signature(algorithm="ecdsa-p256-sha256", signature_value=b"s"))),
        ("signature of ecdsa, 72 bytes", encode(g=signature(algorithm="ecdsa-p256-sha256", signature_value=bytes(72)))),
        ("issued_at = not_before", encode(payload(issued_at=2000))),
        ("all at 0 but not_after", encode(payload(issued_at=0, not_before=0, not_after=1))),
        ("period 7,776,000", encode(payload(not_after=2000 + 7776000))),
        ("not_after the largest number", encode(payload(not_before=2**64 - 1 - 7776000, not_after=2**64 - 1))),
    ]
    late = [
        ("period 7,776,001", encode(payload(not_after=2000 + 7776001))),
        ("the longest period", encode(payload(issued_at=0, not_before=0, not_after=2**64 - 1))),
    ]
    issued, issuer = b"\x69issued_at\x19\x03\xe8", b"\x69issuer_id\x63uni"
    bad = [
        ("32,769 bytes", sized(32769)),
        ("no byte", b""),
        ("cut by a byte", base[:-1]),
        ("a byte after the item", base + b"\x00"),
        ("version 2", encode(version=2)),
        ("no version", encode(version=None)),
        ("no signature", encode(signature=None)),
        ("no payload", b"\xa2" + base[1 + 8 + len(dumped(payload())) :]),
        ("a key more", encode(zusatz=1)),
        (
            "keys in alphabetical order",
            b"\xa3\x67payload" + dumped(payload()) + b"\x69signature" + dumped(signature()) + b"\x67version\x01",
        ),
        ("a key twice", swap(base, b"\xa3\x67payload", b"\xa4\x67version\x01\x67payload")),
        ("payload with a key more", encode(payload(zusatz_schluessel="x"))),
        ("payload in another order", swap(base, issued + issuer, issuer + issued)),
    ]
    bad += [(f"no {k}", encode(payload(**{k: None}))) for k in payload()]
    bad += [(f"no {k}", encode(g=signature(**{k: None}))) for k in signature()]
    bad += [
        ("grant without modes", encode(payload(grants=[{"resource_pattern": T + "/a"}]))),
        ("grant without pattern", encode(payload(grants=[{"modes": ["read"]}]))),
        ("grant with a key more", encode(payload(grants=[grant(zzz="1")]))),
        ("a longer head of a number", swap(base, b"\x69not_after\x19\x0b\xb8", b"\x69not_after\x1a\x00\x00\x0b\xb8")),
        ("a longer head of a text", swap(base, b"\x69issuer_id\x63uni", b"\x69issuer_id\x78\x03uni")),
        ("a longer head of a map", swap(base, b"\xa3\x67payload", b"\xb8\x03\x67payload")),
        ("a longer head of an array", swap(base, b"\x66grants\x81", b"\x66grants\x98\x01")),
        ("a longer head of a grant", swap(base, b"\xa2\x65modes", b"\xb8\x02\x65modes")),
        ("a longer head of modes", swap(base, b"\x65modes\x81", b"\x65modes\x98\x01")),
        ("modes with the additional information 28", swap(base, b"\x65modes\x81", b"\x65modes\x9c")),
        ("an array of no definite length", swap(base, b"\x65modes\x81\x64read", b"\x65modes\x9f\x64read\xff")),
        ("a text of no definite length", swap(base, b"\x69issuer_id\x63uni", b"\x69issuer_id\x7f\x63uni\xff")),
        ("a tag", swap(base, b"\x69not_after\x19\x0b\xb8", b"\x69not_after\xc1\x19\x0b\xb8")),
        ("a negative number", encode(payload(issued_at=-1))),
        ("a floating-point number", encode(payload(issued_at=1.5))),
        ("null for grantor_id", swap(encode(payload(grantor_id="p")), b"\x61p", b"\xf6")),
        ("true for version", encode(version=True)),
        ("text for descriptor_id", encode(payload(descriptor_id="a" * 16))),
        ("bytes for issuer_id", encode(payload(issuer_id=b"uni"))),
        ("descriptor_id of 15 bytes", encode(payload(descriptor_id=bytes(15)))),
        ("descriptor_id of 17 bytes", encode(payload(descriptor_id=bytes(17)))),
        ("issuer_id empty", encode(payload(issuer_id=""))),
        ("issuer_id of 129 bytes", encode(payload(issuer_id="i" * 129))),
        ("issuer_id no UTF-8", swap(base, b"\x63uni", b"\x63u\xffi")),
        ("grantor_id empty", encode(payload(grantor_id=""))),
        ("grantor_id of 129 bytes", encode(payload(grantor_id="g" * 129))),
        ("key_id empty", encode(g=signature(key_id=""))),
        ("key_id of 65 bytes", encode(g=signature(key_id="k" * 65))),
        ("signature of ed25519, 63 bytes", encode(g=signature(signature_value=bytes(63)))),
        ("signature of ed25519, 65 bytes", encode(g=signature(signature_value=bytes(65)))),
        ("signature of ecdsa, no byte", encode(g=signature(algorithm="ecdsa-p256-sha256", signature_value=b""))),
        ("signature of ecdsa, 73 bytes", encode(g=signature(algorithm="ecdsa-p256-sha256", signature_value=bytes(73)))),
        ("another algorithm", encode(g=signature(algorithm="ed448"))),
        ("no grant", encode(payload(grants=[]))),
        ("257 grants", encode(payload(grants=[grant(["read"], T + f"/{i}") for i in range(257)]))),
        ("no mode", encode(payload(grants=[grant([])]))),
        ("a mode twice", encode(payload(grants=[grant(["read", "write", "read"])]))),
        ("another mode", encode(payload(grants=[grant(["watch"])]))),
        ("17 pairs of metadata", encode(payload(metadata=pairs(17)))),
        ("9 pairs of constraints", encode(payload(grants=[grant(constraints=pairs(9))]))),
        ("a pair's key empty", encode(payload(metadata={"": "v"}))),
        ("a pair's key of 65 bytes", encode(payload(metadata={"k" * 65: "v"}))),
        ("a pair's value of 257 bytes", encode(payload(metadata={"k": "v" * 257}))),
        ("a pair's value no UTF-8", swap(encode(payload(metadata={"k": "ü"})), b"\x62\xc3\xbc", b"\x62\xc3\x28")),
        ("pairs in another order", swap(encode(payload(metadata={"a": "1", "b": "2"})), b"\x61a\x611\x61b\x612", b"\x61b\x612\x61a\x611")),
        ("a pair's key twice", swap(encode(payload(metadata={"a": "1", "b": "2"})), b"\x61a\x611\x61b\x612", b"\x61a\x611\x61a\x612")),
        ("pattern T/cam*", encode(payload(grants=[grant(pattern=T + "/cam*")]))),
        ("pattern T/**/a", encode(payload(grants=[grant(pattern=T + "/**/a")]))),
        ("pattern T//a", encode(payload(grants=[grant(pattern=T + "//a")]))),
        ("pattern T", encode(payload(grants=[grant(pattern=T)]))),
        ("pattern T/", encode(payload(grants=[grant(pattern=T + "/")]))),
        ("pattern of 257 bytes", encode(payload(grants=[grant(pattern=T + "/" + "a" * 211)]))),
        *[
            (f"later pattern {name}", encode(payload(grants=[grant(), grant(pattern=pattern)])))
            for name, pattern in (
                ("T", T),
                ("T/", T + "/"),
                ("T-a", T + "-a"),
                ("T//a", T + "//a"),
                ("T/cam*", T + "/cam*"),
                ("T/**/a", T + "/**/a"),
                ("T/***", T + "/***"),
                ("of 257 bytes", T + "/" + "a" * 211),
                ("of a malformed terminal id", T[:-1] + "g/a"),
            )
        ],
        ("pattern of another terminal, first", encode(payload(grants=[grant(pattern=U + "/a"), grant()]))),
        ("pattern of another terminal, later", encode(payload(grants=[grant(), grant(pattern=U + "/a")]))),
        ("patterns of another terminal, all", encode(payload(grants=[grant(pattern=U + "/a"), grant(pattern=U + "/b")]))),
        ("fay id malformed", encode(payload(subject_fay_id=FAY[:-1] + "g"))),
        ("fay id too short", encode(payload(subject_fay_id=FAY[:-1]))),
        ("terminal id malformed", encode(payload(terminal_id="Terminal" + T[8:]))),
        ("issued_at after not_before", encode(payload(issued_at=2001))),
        ("not_before = not_after", encode(payload(not_before=3000))),
        ("not_before after not_after", encode(payload(not_before=3001))),
        ("too long valid and a mode twice", encode(payload(not_after=2**63, grants=[grant(["read", "read"])]))),
    ]
    return [("Read", 0, ok), ("Valid for too long", 2, late), ("Refused", 1, bad)]


def of_grant(s, index):
    """What is written of the grant with the index."""
    f = read(s)[1]
    out = f"\n    grant {index}"
    if f is None or index >= len(f["grants"]):
        return out + answered(0)
    g = f["grants"][index]
    return out + answered(1, pattern=g["pattern"][1::-1], mask=g["mask"], modes_at=g["modes"], constraints=g["constraints"][::-1])


def described(s):
    """What is written of a descriptor."""
    answer, f = read(s)
    if answer != 0:
        return answered(answer) + "\n    payload part of 0 bytes, sum 7"
    grants, mask = f["grants"], 0
    for g in grants:
        mask |= g["mask"]
    lines = [
        dict(payload=f["payload"][::-1], issued_at=f["issued_at"], not_before=f["not_before"], not_after=f["not_after"]),
        dict(id_at=f["id"], issuer=f["issuer"][::-1], grantor=f["grantor"][::-1], fay_at=f["fay"], terminal_at=f["terminal"]),
        dict(grants=len(grants), metadata=f["metadata"][::-1], constraint_pairs=sum(g["constraints"][1] for g in grants), mask=mask),
        dict(key_id=f["key"][::-1], algorithm=f["algorithm"], signature=f["signature"][::-1]),
    ]
    at, n = f["payload"]
    lines = [*map(written, lines), f"payload part of {n} bytes, sum {summed(s[at : at + n])}"]
    return ": 0" + "".join("\n    " + line for line in lines)


def add_descriptor(v, name, s, answer):
    """A descriptor that is read with this answer, and its first grants."""
    got, f = read(s)
    assert got == answer, name
    count = min(3, len(f["grants"]) + 1) if f else 1
    expected = described(s) + "".join(of_grant(s, i) for i in range(count))
    v.add(DESCRIPTOR, f"{name}, {len(s)} bytes", expected, [count], [s])


def descriptors(v):
    for heading, answer, rows in vectors():
        v.heading("## " + heading)
        for name, s in rows:
            add_descriptor(v, name, s, answer)
    v.heading("## Grants by their index")
    for n, indices in ((3, (0, 2, 3, 2**32, 2**64 - 1)), (256, (255, 256))):
        s = encode(payload(grants=[grant(["execute"], T + f"/g/{i}") for i in range(n)]))
        for i in indices:
            v.add(GRANT, f"{n} grants", of_grant(s, i), [i], [s])
    v.add(GRANT, "no descriptor", of_grant(b"", 0), [0], [b""])
