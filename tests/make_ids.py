"""The ids among the stored vectors (document 02 §6): which ids a submission takes, which refusals come before and after that, and what is answered on
descriptors that were stored before it.

The descriptors and the expected output are made as those of make_gate.py. What is expected of an id is compared with what Python's own uuid says of it.
"""
import uuid
from collections import namedtuple

from make_descriptors import ID, LONGEST, add_descriptor, encode, fields, grant, payload
from make_gate import LAST
from make_matching import T, match
from make_narrowing import narrow, one
from make_store import LATEST, NOW, OVER, refused_requests
from ordinary_gate import DAY, FIRST, SECOND, image_of, text_at
from records import MATCH, NARROW
from runs import answer_of, ident, made, must_be
from uuids import VARIANT, VERSION, changed, number_of, text_of

# the ids of a descriptor
DESCRIPTOR, FAY, TERMINAL = IDS = ("descriptor id", "fay id", "terminal id")

# RFC 9562's examples, by their versions (Appendix A and B.1)
EXAMPLES = {
    1: "c232ab00-9414-11ec-b3c8-9f6bdeced846",
    3: "5df41881-3aed-3515-88a7-2f4a814cf09e",
    4: "919108f7-52d1-4320-9bac-f847db4148a8",
    5: "2ed6657d-e927-568b-95e1-2665a8aea6a2",
    6: "1ec9414c-232a-6b00-b3c8-9f6bdeced846",
    7: "017f22e2-79b0-7cc3-98c4-dc0c0c07398f",
    8: "2489e9ad-2ee2-8e00-8ec9-32d5f69181c0",
}
FOUR, RIGHT = EXAMPLES[4], EXAMPLES[7]
# the smallest and the largest UUID of version 7, and one with all letters that are hexadecimal digits
SMALLEST, LARGEST = "00000000-0000-7000-8000-000000000000", "ffffffff-ffff-7fff-bfff-ffffffffffff"
LETTERS = "abcdefab-cdef-7abc-bdef-abcdefabcdef"


def named(which, text):
    """The fields of a payload of which one id has the UUID text."""
    if which == DESCRIPTOR:
        return dict(descriptor_id=number_of(text).to_bytes(16, "big"))
    if which == FAY:
        return dict(subject_fay_id="fay:" + text)
    return dict(terminal_id="terminal:" + text, grants=[grant(pattern=f"terminal:{text}/a/*")])


def with_id(which, text, i=1, **more):
    """A descriptor of which one id has the UUID text; its descriptor id, if that is another, has the number."""
    return encode(payload(**{"descriptor_id": ident(i), **named(which, text), **more}))


def with_bits(place, number):
    """The text of a UUID that has another number at the place than the one of version 7."""
    return text_of(changed(number_of(RIGHT), place, number))


def tried(r, which, name, text, must, i=1):
    """A submission of a descriptor of which one id has the UUID text."""
    known = uuid.UUID(text)
    enters = known.variant == uuid.RFC_4122 and known.version == 7 and (which == DESCRIPTOR or text == str(known))
    assert must == (0 if enters else 1), name
    r.submit(f"{which} {name}", with_id(which, text, i), must=must)


def new_image(r, n):
    """A new image in so many bytes."""
    r.lend(f"{n:,} bytes", n)
    r.new("new image")


# ---- which ids are taken


def wrong_bits(r):
    """Each id with another version or another variant, alone and with another one."""
    new_image(r, 2000)
    r.submit("stored", encode(), must=0)
    for which in IDS:
        for version in (4, 6, 8, 15):
            tried(r, which, f"of version {version}", with_bits(VERSION, version), 1)
        for variant in (0, 1, 3):
            tried(r, which, f"of variant {variant:02b}", with_bits(VARIANT, variant), 1)
        tried(r, which, "with 7 a digit after the version", with_bits((48, 55), 0xC7), 1)
    for first, second in ((DESCRIPTOR, FAY), (DESCRIPTOR, TERMINAL), (FAY, TERMINAL)):
        r.submit(f"{first} and {second} of version 4", with_id(first, FOUR, **named(second, FOUR)), must=1)
    r.submit("none of them of version 4", made(1), must=0)


def upper_case(r):
    """One digit of a text in upper case, each letter once: the first digit, the last, that of the variant and others; then all digits."""
    new_image(r, 2000)
    r.submit("stored", encode(), must=0)
    for i, which in enumerate((FAY, TERMINAL), 1):
        for at in (0, 9, 19, 20, 21, 35):
            letter = LETTERS[at].upper()
            tried(r, which, f"with {letter} at place {at}", LETTERS[:at] + letter + LETTERS[at + 1 :], 1, i)
        tried(r, which, "in upper case", LETTERS.upper(), 1, i)
        tried(r, which, "in lower case", LETTERS, 0, i)


def taken(r):
    """Every digit that the variant leaves, and the smallest and the largest UUID of version 7."""
    new_image(r, 12000)
    texts = [(f"with the variant's digit {digit}", f"017f22e2-79b0-7cc3-{digit}8c4-dc0c0c07398f") for digit in "89ab"]
    for number, (name, text) in enumerate([*texts, ("of the smallest UUID", SMALLEST), ("of the largest UUID", LARGEST)]):
        for i, which in enumerate(IDS):
            tried(r, which, name, text, 0, 10 * number + i)


def examples(r):
    """RFC 9562's examples, and its nil and max UUID."""
    new_image(r, 3000)
    for i, which in enumerate(IDS):
        for version, text in EXAMPLES.items():
            assert uuid.UUID(text).version == version
            tried(r, which, f"of the example of version {version}", text, 0 if version == 7 else 1, 10 * version + i)
        tried(r, which, "of the nil UUID", text_of(0), 1, i)
        tried(r, which, "of the max UUID", text_of(2**128 - 1), 1, i)
    for which in (FAY, TERMINAL):
        tried(r, which, "of the example of version 7, in upper case", RIGHT.upper(), 1)


def no_ids(r):
    """Texts other than the three ids are not looked at."""
    new_image(r, 4000)
    other = FOUR.upper()
    r.submit("names in upper case", made(1, grants=[grant(pattern=T + "/A/B")]), must=0)
    r.request("request for them", id=ident(1), resource=T + "/A/B", must=0)
    r.submit("a name that is a UUID of version 4", made(2, grants=[grant(), grant(pattern=f"{T}/{other}/*")]), must=0)
    r.request("request for it", id=ident(2), resource=f"{T}/{other}/a", must=0)
    r.submit("a grantor id of version 4", made(3, grantor_id="fay:" + other), must=0)
    r.submit("an issuer id of version 4", made(4, issuer_id="terminal:" + other), must=0)
    r.submit("metadata and a constraint of version 4", made(5, metadata={"fay": other}, grants=[grant(constraints={"id": other})]), must=0)


# ---- before and after

# ids that no submission takes, each with its name, which one it is, and its text; the first three are of version 4
Other = namedtuple("Other", "name which text")
OTHERS = [Other(f"{which} of version 4", which, FOUR) for which in IDS]
OTHERS += [Other(f"{which} in upper case", which, RIGHT.upper()) for which in (FAY, TERMINAL)]
LONG = dict(not_after=2000 + LONGEST + 1)
AHEAD = dict(issued_at=0, not_before=2000 + DAY + 1, not_after=2000 + DAY + 2)


def bodies(**more):
    """The name of each of those ids, and a descriptor with it."""
    return [(other.name, with_id(other.which, other.text, i, **more)) for i, other in enumerate(OTHERS, 1)]


def each(r, fault, pairs, must, **more):
    """A submission of each of these descriptors, with another fault."""
    for name, body in pairs:
        r.submit(f"{name}, {fault}", body, must=must, **more)


def steps(r):
    """15 and 16 come before the 1 of an id, and every other refusal after it."""
    size = len(image_of([encode(), made(1)]))
    r.load("no image", b"\x00" * 100)
    each(r, "no image", bodies(), 16)
    r.load("image of edition 1", image_of([encode()], 600, FIRST))
    each(r, "image of edition 1", bodies()[:3], 16)
    new_image(r, size)
    r.submit("stored", encode(), must=0)
    each(r, "verdict 3", bodies()[:3], 15, verdict=3)
    each(r, "period of 7,776,001", bodies(**LONG), 1)
    each(r, "the longest period", bodies(issued_at=0, not_before=0, not_after=LAST)[:1], 1)
    each(r, "begins one second too far ahead", bodies(**AHEAD), 1)
    each(r, "no such key", bodies()[:3], 1, verdict=2)
    each(r, "key not valid yet", bodies()[:3], 1, valid=(2001, 0, 0))
    each(r, "signature bad", bodies()[:3], 1, verdict=1)
    each(r, "descriptor id held with other bytes", bodies(descriptor_id=ID)[1:], 1)
    r.lend("a byte too short for another", size - 1)
    each(r, "no room", bodies()[:3], 1)
    right_ids(r, size)


def with_other_bits(**more):
    """The name of each id with another version or variant, but for version 4, and a descriptor with it."""
    texts = [(f"of version {version}", with_bits(VERSION, version)) for version in (6, 8)]
    texts += [(f"of variant {variant:02b}", with_bits(VARIANT, variant)) for variant in (0, 1, 3)]
    return [(f"{which} {name}", with_id(which, text, **more)) for which in IDS for name, text in texts]


def beside(r):
    """The other versions and variants, with 16 before them and 2 after them."""
    r.load("no image", b"\x00" * 100)
    each(r, "no image", with_other_bits(), 16)
    new_image(r, 1000)
    each(r, "period of 7,776,001", with_other_bits(**LONG), 1)
    each(r, "begins one second too far ahead", with_other_bits(**AHEAD), 1)


def right_ids(r, size):
    """The same refusals where the ids are right."""
    right = with_id(FAY, RIGHT)
    r.submit("right ids, no room", right, must=6)
    r.lend("the byte again", size)
    r.submit("right ids, period of 7,776,001", with_id(FAY, RIGHT, **LONG), must=2)
    r.submit("right ids, begins one second too far ahead", with_id(FAY, RIGHT, **AHEAD), must=2)
    r.submit("right ids, no such key", right, verdict=2, must=3)
    r.submit("right ids, key not valid yet", right, valid=(2001, 0, 0), must=14)
    r.submit("right ids, signature bad", right, verdict=1, must=4)
    r.submit("right ids, descriptor id held with other bytes", with_id(FAY, RIGHT, descriptor_id=ID), must=5)
    r.submit("right ids, room", right, must=0)


# ---- descriptors from before


def asked(body):
    """What a request for a descriptor has."""
    f = fields(body)
    terminal = text_at(body, f["terminal"], 45)
    return dict(id=body[f["id"] : f["id"] + 16], fay=text_at(body, f["fay"], 40), terminal=terminal, resource=terminal + "/a/b")


def found(r, held):
    """A lookup of each descriptor, and a request for it."""
    for name, body in held:
        r.find(f"lookup: {name}", asked(body)["id"], must=0)
        r.request(f"request: {name}", now=NOW, must=0, **asked(body))


def before(r):
    """Images of both editions that hold such descriptors: lookups and requests keep the old rule."""
    held = [*bodies(), ("right ids", encode())]
    for edition in (FIRST, SECOND):
        r.load(f"image of edition {edition.number} from before", image_of([body for _, body in held], 40, edition))
        found(r, held)
    for name, must, q in refused_requests(named(DESCRIPTOR, FOUR)["descriptor_id"]):
        r.request(f"descriptor id of version 4, {name}", must=must, **q)
    fay, terminal = (asked(body) for name, body in held if "upper case" in name)
    lower = terminal["terminal"].lower()
    r.request("fay id in upper case, asked for in lower case", must=11, **{**fay, "fay": fay["fay"].lower()})
    r.request("terminal id in upper case, asked for in lower case", must=12, **{**terminal, "terminal": lower})
    r.request("terminal id in upper case, a resource in lower case", must=13, **{**terminal, "resource": lower + "/a/b"})


def upgraded(r):
    """An image of edition 1 with such descriptors is upgraded and takes a new one; they are still found, and refused when they are submitted again."""
    held = [*bodies(), ("right ids", encode())]
    r.lend("5,000 bytes", 5000)
    r.upgrade("upgrade", image_of([body for _, body in held], 0, FIRST), must=0)
    r.submit("a new one", made(LATEST), must=0)
    found(r, held)
    each(r, "the same bytes", bodies(), 1)
    each(r, "the same bytes, signature bad", bodies()[:1], 1, verdict=1)
    each(r, "other bytes under the descriptor id", bodies(issuer_id="inu")[:3], 1)
    for i, other in enumerate(OTHERS[1:3], 2):
        r.submit(f"{other.name}, right ids under the descriptor id", made(i), must=5)
    r.submit("right ids, the same bytes", encode(), must=0)


def full(r):
    """A full image: one from before goes when it is expired, and stays when it is not; a submission that is refused makes no room."""
    old, over = with_id(DESCRIPTOR, FOUR), with_id(DESCRIPTOR, FOUR, not_after=OVER)
    r.load("image: full, one from before that is not expired", image_of([old, encode()]))
    r.submit("no room", made(1), now=NOW, must=6)
    r.load("image: full, one from before that is expired", image_of([over, encode()]))
    each(r, "no room but by one that is expired", bodies()[1:3], 1, now=NOW)
    r.find("lookup of the one that is expired", asked(over)["id"], must=0)
    r.submit("room in its place", made(1), now=NOW, must=0)
    r.find("lookup of it", asked(over)["id"], must=7)
    r.submit("it is submitted again", over, now=NOW, must=1)


# ---- the old rule


def reading(r):
    """Descriptors with such ids read, and one with too long a period is answered 2."""
    for name, body in bodies():
        add_descriptor(r.v, name, body, 0)
    for name, body in bodies(**LONG)[:1]:
        add_descriptor(r.v, f"{name}, period of 7,776,001", body, 2)


def matching(r):
    """Terminals of version 4 match; the same digits in upper case are another terminal."""
    lower, upper = f"terminal:{FOUR}/a".encode(), f"terminal:{FOUR.upper()}/a".encode()
    for name, pattern, resource, yes in (
        ("terminal id of version 4", lower, lower, 1),
        ("terminal id of version 4 in upper case", upper, upper, 1),
        ("terminal id of version 4, in upper case in the pattern", upper, lower, 0),
    ):
        answer = match(pattern, resource)
        assert answer == f": 0, yes {yes}, names {yes}", name
        r.v.add(MATCH, name, answer, [], [pattern, resource])


def narrowing(r):
    """A child is inside its parent with any ids; a terminal in upper case is another terminal."""
    fays = [dict(subject_fay_id="fay:" + text) for text in (FOUR, RIGHT.upper())]
    lower, upper = (dict(terminal="terminal:" + text) for text in (FOUR, FOUR.upper()))
    for name, parent, child, must in (
        ("descriptor ids of version 4 and 6", named(DESCRIPTOR, FOUR), named(DESCRIPTOR, EXAMPLES[6]), 0),
        ("fay ids of version 4 and in upper case", *fays, 0),
        ("terminal ids of version 4", lower, lower, 0),
        ("terminal ids of version 4 in upper case", upper, upper, 0),
        ("terminal ids of version 4, in upper case in the parent", upper, lower, 20),
    ):
        pair = one("a/*", **parent), one("a/b", **child)
        answer = narrow(*pair)
        must_be(name, answer_of(answer), must)
        r.v.add(NARROW, name, answer, [], pair)


def ids(r):
    r.groups(
        ("Another version, another variant", wrong_bits),
        ("Upper-case digits", upper_case),
        ("Ids that are taken", taken),
        ("RFC 9562's examples", examples),
        ("What is no id", no_ids),
        ("Before and after the ids", steps),
        ("Before and after other versions and variants", beside),
        ("Descriptors from before", before),
        ("Descriptors from before, upgraded", upgraded),
        ("Descriptors from before in a full image", full),
        ("Reading keeps the old rule", reading),
        ("Matching keeps the old rule", matching),
        ("Narrowing keeps the old rule", narrowing),
    )
