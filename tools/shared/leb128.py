"""Numbers in LEB128."""


def unsigned(value):
    """Returns the shortest encoding of a number that is not negative."""
    out = []
    while value >= 0x80:
        out.append(value & 0x7F | 0x80)
        value >>= 7
    return bytes([*out, value])


def signed(value):
    """Returns the shortest encoding of a signed number."""
    out = []
    while not -0x40 <= value < 0x40:
        out.append(value & 0x7F | 0x80)
        value >>= 7
    return bytes([*out, value & 0x7F])


def read(data, at):
    """Returns the value of the unsigned number at an index, and the index after it."""
    value, bits = 0, 0
    while True:
        value, bits, at = value | (data[at] & 0x7F) << bits, bits + 7, at + 1
        if data[at - 1] < 0x80:
            return value, at
