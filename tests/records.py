"""The records of the stored vectors, and how an answer is written.

A record has eight parts: a name, numbers of eight bytes, of which the first says which call is made, and six byte strings. A part is
four bytes with its length and so many bytes; numbers and lengths have their highest byte first. The calls are those of include/cap.h,
with their arguments in its order:
  0 no call: the name is a heading
  1 cap_item_read, with the bytes that the reader hands back as a string's content
  2 cap_descriptor_read, with a sum over the bytes that the reader hands back as the payload; then cap_grant_at for so many indices as the
    number says
  3 cap_grant_at
  4 cap_match
  5 cap_narrow
  6 no call: the image begins with the string, and so many bytes of it are lent as the number says
  7 cap_image_new
  8 cap_image_find
  9 cap_submit
  10 cap_request
  11 cap_image_upgrade: the string is the old image, the lent image the second buffer
  12 cap_submit for so many descriptors as the first number says: the string, with 1, 2, 3 and so on in the last four bytes of its id, which is at the
     second number. The clock is the third number, and the fourth more at each; the verdict is 0, and the key is always valid. The answer is the last one's
Calls 6, 7 and 9 to 12 also write the lent image after them: its length, the rows that its header names, and a sum over its bytes.
The image stays from record to record. An answer is written behind the name, with every number by its name in include/cap.h, a part as its
length (a map's as its pairs) and its place, and a margin with its sign; where all numbers but the first are 0 it says so.
"""
HEADING, ITEM, DESCRIPTOR, GRANT, MATCH, NARROW, LEND, NEW, FIND, SUBMIT, REQUEST, UPGRADE, FILL = range(13)


class Vectors:
    """Records, and the output that is expected for them."""

    def __init__(self):
        self.into, self.out, self.cases = [], [], 0

    def add(self, call, name, expected, numbers=(), strings=()):
        numbers = b"".join(n.to_bytes(8, "big") for n in (call, *numbers))
        strings = [*strings, *[b""] * (6 - len(strings))]
        self.into += [len(part).to_bytes(4, "big") + part for part in (name.encode(), numbers, *strings)]
        self.out.append(name + expected + "\n")
        self.cases += call != HEADING

    def heading(self, text):
        self.add(HEADING, text, "")

    def save(self, folder):
        stdin, stdout = b"".join(self.into), "".join(self.out)
        assert len(stdin) <= 3 << 20, "the program's buffer"
        with open(f"{folder}/stdin", "wb") as f:
            f.write(stdin)
        with open(f"{folder}/stdout", "w", encoding="utf-8") as f:
            f.write(stdout)


def written(numbers):
    """Numbers by name; a pair is a length and its place."""
    return ", ".join(f"{name} {n[0]} at {n[1]}" if isinstance(n, tuple) else f"{name} {n}" for name, n in numbers.items())


def summed(s):
    """A sum over all the bytes, which changes with each of them and with their order."""
    n = 7
    for b in s:
        n = n % 4294967291 * 257 + b
    return n % 4294967291


def answered(answer, **numbers):
    """An answer and its other numbers."""
    others = [n for n in numbers.values() if n not in (0, (0, 0))]
    return f": {answer}, " + (written(numbers) if others else "all else 0")
