"""Narrowing among the stored vectors.

The bytes are made by the same independent encoder as those of make_descriptors.py. The expected output is from the search below, which
tries the paths with the fresh name one by one and knows nothing of the Rattle code.
"""
import random

from make_descriptors import MODES, encode, grant, payload, read
from make_matching import T, U, takes
from records import NARROW, answered

CHARACTERS = "abcdefghijklmnopqrstuvwxyzABCDEFGHIJKLMNOPQRSTUVWXYZ0123456789._-"


# ---- an ordinary search, by document 01


def rules(s, f):
    """The mask, the terminal and the levels of each grant."""
    for g in f["grants"]:
        at, n = g["pattern"][:2]
        terminal, *levels = s[at : at + n].decode().split("/")
        yield g["mask"], terminal, levels


def escape(parent, child):
    fresh = "z" * (1 + max(len(level) for _, _, levels in parent for level in levels))
    deepest = max(len(levels) for _, _, levels in parent)
    for i, (mask, terminal, levels) in enumerate(child):
        deep = levels[-1] == "**"
        names = [fresh if level == "*" else level for level in (levels[:-1] if deep else levels)]
        for mode in range(4):
            if mask >> mode & 1:
                over = [q for m, t, q in parent if m >> mode & 1 and t == terminal]
                for k in range(1, deepest + 2) if deep else [0]:
                    if not any(takes(q, names + [fresh] * k) for q in over):
                        return answered(20, grant=i, mode=mode, levels=k)
    return answered(0)


def narrow(parent, child):
    a, f = read(parent)
    if a != 0:
        return answered(21)
    b, g = read(child)
    if b != 0:
        return answered(b)
    if any(r["constraints"][1] for r in f["grants"] + g["grants"]):
        return answered(19)
    if g["not_before"] < f["not_before"] or f["not_after"] < g["not_after"]:
        return answered(18)
    return escape(list(rules(parent, f)), list(rules(child, g)))


# ---- the cases


def one(*patterns, modes=("read",), terminal=T, **more):
    """A descriptor whose grants have these patterns, each of them levels or (modes, levels)."""
    pairs = [(modes, p) if isinstance(p, str) else p for p in patterns]
    return encode(payload(grants=[grant(m, terminal + "/" + p) for m, p in pairs], terminal_id=terminal, **more))


def stars(n):
    return "/".join("*" * n)


def with_pair(**more):
    return encode(payload(grants=[grant(**more)]))


def chosen():
    ladder = [stars(k) for k in range(1, 106)]
    wide = [f"{stars(21)}/{i:03}" for i in range(255)]
    yield "one level under a/*", one("a/*"), one("a/**")
    yield "every level by two grants together", one("a/*", "a/*/**"), one("a/**")
    yield "from two levels on", one("a/*/**"), one("a/**")
    yield "65 grants, each a name of one character", one(*("a/" + c for c in CHARACTERS)), one("a/*")
    yield "a name under *", one("a/*"), one("a/b")
    yield "a longer name under *", one("a/*"), one("a/bb", "a/b/c")
    yield "another name", one("a/b"), one("a/c")
    yield "** under **", one("**"), one("a/*/b/**")
    yield "* under **", one("a/**"), one("a/*", "a/*/*", "*")
    yield "another terminal", one("**"), one("a", terminal=U)
    yield "another terminal in both", one("**", terminal=U), one("a", terminal=U)
    yield "the same period", one("a"), one("a")
    yield "one second inside", one("a"), one("a", not_before=2001, not_after=2999)
    yield "begins one second early", one("a"), one("a", not_before=1999)
    yield "ends one second late", one("a"), one("a", not_after=3001)
    yield "a constraint in the parent", with_pair(constraints={"k": "v"}), with_pair()
    yield "a constraint in the child", with_pair(), with_pair(constraints={"k": "v"})
    yield "a constraint and a late end", with_pair(constraints={"k": "v"}), one("a/*", not_after=3001)
    yield "empty constraints in both", with_pair(constraints={}), with_pair(constraints={})
    yield "modes by two grants together", one((["read"], "a"), (["write"], "*")), one((["write", "read"], "a"))
    yield "the lowest mode of two", one((["execute"], "a")), one((["configure", "execute", "write"], "a"))
    yield "watching is not setting", one((["read"], "furnace")), one((["configure"], "furnace"))
    yield "the second grant", one("a", "b"), one("b", "c", "d")
    yield "a mode with more names than another", one((MODES, "*"), (["read"], "*/*")), one((["write", "read"], "**"))
    yield "a ladder to 105 levels", one(*ladder), one("**")
    yield "a ladder to 105 levels, and deeper", one(*ladder, stars(104) + "/**"), one("**")
    yield "256 grants each, all covered", one(*wide, stars(22) + "/**"), one(*wide, stars(22) + "/**")
    yield "256 grants each, every one of 22 levels and **", one(*[stars(22) + "/**"] * 256), one(*[stars(22) + "/**"] * 256)
    yield "256 grants each, the last escapes", one(*wide, stars(22) + "/**"), one(*wide, stars(21) + "/**")
    yield "the parent is empty", b"", one("a")
    yield "the parent's period is too long", one("a", not_after=7778001), one("a")
    yield "neither reads", b"\x00", b"\x00"
    yield "the child is cut", one("a"), one("a")[:-1]
    yield "the child's period is too long", one("a"), one("a", not_after=7778001)


def some(count):
    draw = random.Random(5)

    def drawn(n, most):
        for _ in range(n):
            levels = [draw.choice(["a", "b", "*", "*", "ab"]) for _ in range(draw.randint(1, most))]
            if draw.random() < 0.4:
                levels[-1] = "**"
            yield draw.sample(MODES, draw.randint(1, 4)), "/".join(levels)

    for i in range(count):
        parent = list(drawn(draw.randint(1, 8), 4))
        child = list(drawn(draw.randint(1, 4), 4))
        if draw.random() < 0.5:
            parent += [(MODES, stars(k)) for k in range(1, draw.randint(2, 7))]
        if draw.random() < 0.3:
            parent.append((MODES, stars(5) + "/**"))
        if draw.random() < 0.3:
            child = draw.sample(parent, min(len(parent), 3))
        yield f"drawn {i}", one(*parent), one(*child)


def narrowing(v):
    for heading, rows in (("Chosen", chosen()), ("Drawn", some(150))):
        v.heading("## " + heading)
        for name, parent, child in rows:
            v.add(NARROW, name, narrow(parent, child), [], [parent, child])
