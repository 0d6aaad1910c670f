"""Matching among the stored vectors.

The expected output is from the regular expressions and the comparison below, which are written from documents 01 and 02 and know nothing of
the Rattle code.
"""
import random
import re

from records import MATCH

T = "terminal:00000000-0000-7000-8000-000000000001"
U = "terminal:00000000-0000-7000-8000-000000000002"
HEX = "[0-9a-fA-F]"
UUID = f"{HEX}{{8}}-{HEX}{{4}}-{HEX}{{4}}-{HEX}{{4}}-{HEX}{{12}}"
NAME = "[a-zA-Z0-9._-]+"
PATTERN = re.compile(rf"terminal:{UUID}(/({NAME}|\*))*/({NAME}|\*|\*\*)\Z")
RESOURCE = re.compile(rf"terminal:{UUID}(/{NAME})+\Z")


# ---- ordinary matching, by documents 01 and 02


def is_pattern(s):
    return len(s) <= 256 and PATTERN.match(s.decode("latin-1")) is not None


def is_resource(s):
    return len(s) <= 256 and RESOURCE.match(s.decode("latin-1")) is not None


def takes(levels, names):
    """Whether a pattern's levels take a path's names."""
    if levels[-1] == "**":
        if len(names) < len(levels):
            return False
        levels = levels[:-1]
        names = names[: len(levels)]
    return len(levels) == len(names) and all(level in ("*", name) for level, name in zip(levels, names))


def matches(pattern, resource):
    return takes(pattern.split("/"), resource.split("/"))


def equal_names(pattern, resource):
    """How many levels below the terminal id are matched by equal names, of a pattern that matches."""
    pairs = zip(pattern.split("/")[1:], resource.split("/")[1:])
    return sum(level == name for level, name in pairs)


def match(pattern, resource):
    if not is_pattern(pattern) or not is_resource(resource):
        return ": 15, yes 0, names 0"
    pattern, resource = pattern.decode(), resource.decode()
    if not matches(pattern, resource):
        return ": 0, yes 0, names 0"
    return f": 0, yes 1, names {equal_names(pattern, resource)}"


# ---- the cases


def plain(s):
    return s.encode("unicode_escape").decode()


def chosen():
    """A name, a pattern and a resource id, both below the terminal T where they begin with a slash."""
    yield "* takes a name", "/a/*", "/a/b"
    yield "* takes no two names", "/a/*", "/a/b/c"
    yield "* takes no fewer than one name", "/a/*", "/a"
    yield "* before a name", "/*/b", "/a/b"
    yield "* before another name", "/*/c", "/a/b"
    yield "** takes no fewer than one name", "/a/**", "/a"
    yield "** takes one name", "/a/**", "/a/b"
    yield "** takes three names", "/a/**", "/a/b/c/d"
    yield "** after another name", "/b/**", "/a/b"
    yield "** alone", "/**", "/a/b/c"
    yield "* and **", "/*/**", "/a"
    yield "* and ** take two names", "/*/**", "/a/b"
    yield "the same names", "/a/b", "/a/b"
    yield "a name less", "/a/b", "/a"
    yield "a name more", "/a", "/a/b"
    yield "the beginning of a name", "/ab", "/a"
    yield "more than a name", "/a", "/ab"
    yield "a name in other letters", "/a", "/A"
    yield "every character of a name", "/aZ09._-", "/aZ09._-"
    yield "another terminal", "/**", U + "/a"
    yield "a terminal in other letters", T.replace("7000", "7abc") + "/a", T.replace("7000", "7ABC") + "/a"
    yield "a terminal in upper case", T.replace("7000", "7ABC") + "/*", T.replace("7000", "7ABC") + "/a"
    yield "100 levels", "/*" * 100, "/n" * 100
    yield "105 levels", "/*" * 105, "/n" * 105
    yield "104 levels and **", "/*" * 103 + "/**", "/n" * 105
    yield "106 levels", "/*" * 106, "/n" * 106
    for name, n in (("256 bytes", 256), ("257 bytes", 257)):
        yield f"pattern of {name}", "/" + "n" * (n - 46), "/n"
        yield f"resource of {name}", "/*", "/" + "n" * (n - 46)
    for level in ("**/a", "a*", "*a", "***", "a**", "", "a/", "/a", "a//b", "a b", "a\n", "a\0", "ü", "a/**/b", "a/***", "*/a*", "**a", "a/*/"):
        yield f"pattern T/{plain(level)}", "/" + level, "/a"
    for level in ("*", "**", "a/*", "a/**", "a**", "", "a/", "/a", "a//b", "a b", "a\n", "a\0", "ü"):
        yield f"resource T/{plain(level)}", "/**", "/" + level
    yield "no level", T, T
    yield "no pattern", "", "/a"
    yield "no resource", "/a", ""
    yield "two words", "x", "y"
    for name, terminal in (
        ("Terminal:", T.capitalize()),
        ("without a digit", T[:-1]),
        ("with a digit more", T + "1"),
        ("a letter that is no digit", T[:-1] + "g"),
        ("a hyphen elsewhere", T.replace("0-0", "00-", 1)),
        ("fay:", T.replace("terminal", "fay")),
    ):
        yield f"terminal of a pattern, {name}", terminal + "/a", "/a"
        yield f"terminal of a resource, {name}", "/a", terminal + "/a"


def counted():
    """The same, for the levels that are matched by equal names."""
    yield "one name", "/a", "/a"
    yield "two names", "/a/b", "/a/b"
    yield "five names", "/a/b/c/d/e", "/a/b/c/d/e"
    yield "the same name twice", "/a/a", "/a/a"
    yield "* counts 0", "/*", "/a"
    yield "* after a name", "/a/*", "/a/b"
    yield "* before a name", "/*/b", "/a/b"
    yield "* between names", "/a/*/c", "/a/b/c"
    yield "* for a name that stands before it", "/a/*", "/a/a"
    yield "** counts 0", "/**", "/a"
    yield "** for three names counts 0", "/**", "/a/b/c"
    yield "** after a name", "/a/**", "/a/b"
    yield "** after two names, for two", "/a/b/**", "/a/b/c/d"
    yield "** for names that stand before it", "/a/**", "/a/a/a"
    yield "a name, *, a name, **", "/a/*/c/**", "/a/b/c/d/e"
    yield "the terminal id is no level", "/*/*", "/a/b"
    yield "a name as long as the terminal id", "/" + "n" * 45, "/" + "n" * 45
    # a no counts 0, whatever is equal
    yield "the last name differs", "/a/b/c", "/a/b/d"
    yield "the first name differs", "/a/b/c", "/d/b/c"
    yield "equal names, and a name more", "/a/b", "/a/b/c"
    yield "equal names, and a name less", "/a/b/c", "/a/b"
    yield "equal names, and none for *", "/a/b/*", "/a/b"
    yield "equal names, and none for **", "/a/b/**", "/a/b"
    yield "equal names under another terminal", "/a/b/c", U + "/a/b/c"
    yield "equal names, and a malformed pattern", "/a/b/c*", "/a/b/c"
    yield "equal names, and a malformed resource id", "/a/b/**", "/a/b/c/"
    # as many levels as there can be
    yield "100 names", "/n" * 100, "/n" * 100
    yield "105 names", "/n" * 105, "/n" * 105
    yield "99 names and *", "/n" * 99 + "/*", "/n" * 100
    yield "* and 99 names", "/*" + "/n" * 99, "/n" * 100
    yield "* and names by turns, 100 levels", "/*/n" * 50, "/n" * 100
    yield "50 names and **", "/n" * 50 + "/**", "/n" * 100
    yield "103 names and **", "/n" * 103 + "/**", "/n" * 105
    yield "100 names, of which the last differs", "/n" * 99 + "/m", "/n" * 100
    yield "100 names, and one more", "/n" * 100, "/n" * 101


def drawn(count):
    draw = random.Random(7)
    for i in range(count):
        levels = [draw.choice(["a", "b", "*", "*", "ab"]) for _ in range(draw.randint(1, 4))]
        if draw.random() < 0.4:
            levels[-1] = "**"
        names = [level if level in ("a", "b", "ab") and draw.random() < 0.9 else draw.choice(["a", "b", "ab"]) for level in levels]
        names += [draw.choice("ab")] * draw.choice([0, 0, 0, 1, 2])
        yield f"drawn {i}", "/" + "/".join(levels), "/" + "/".join(names)


def matching(v):
    for heading, rows in (("Chosen", chosen()), ("Equal names", counted()), ("Drawn", drawn(60))):
        v.heading("## " + heading)
        for name, *texts in rows:
            pattern, resource = ((T + t if t[:1] == "/" else t).encode() for t in texts)
            v.add(MATCH, name, match(pattern, resource), [], [pattern, resource])
