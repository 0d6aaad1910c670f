"""UUIDs by RFC 9562, each a number of 128 bits, and the version that a submission asks for (document 02 §6)."""

# where the version and the variant stand: the first and the last bit, counted as RFC 9562 does, from the highest bit, which is bit 0
VERSION, VARIANT = (48, 51), (64, 65)


def bits(uuid, place):
    """The number that a UUID has at a place."""
    first, last = place
    return uuid >> (127 - last) & (1 << (last - first + 1)) - 1


def changed(uuid, place, number):
    """The UUID with another number at the place."""
    return uuid + (number - bits(uuid, place) << 127 - place[1])


def is_version_7(uuid):
    """Whether a UUID has version 7 and RFC 9562's variant, 10 in binary."""
    return bits(uuid, VERSION) == 7 and bits(uuid, VARIANT) == 2


def version_7(octets):
    """16 octets with version 7 and RFC 9562's variant written over what they have there."""
    uuid = changed(int.from_bytes(octets, "big"), VERSION, 7)
    return changed(uuid, VARIANT, 2).to_bytes(16, "big")


def number_of(text):
    """The UUID that a text has, of which only the hexadecimal digits count."""
    return int(text.replace("-", ""), 16)


def text_of(uuid):
    """The text of a UUID, in lower case."""
    digits = f"{uuid:032x}"
    return "-".join(digits[start:end] for start, end in ((0, 8), (8, 12), (12, 16), (16, 20), (20, 32)))
