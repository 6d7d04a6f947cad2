"""Document 01, "The kinds, by code", and requests 09 and 14: the codes of the rows that have several, and those without a row, for the cases written by hand."""

ADDRESS = [1, 16, 28, 32, 50, 54]
ADDRESSES = [3, 4, 5, 6, 7, 9, 11, 41, 42, 44, 45, 48, 49, 65, 69, 70, 71, 72, 73, 74, 75, 76]  # and 68
PAIRS = [21, 33]
FLAG = [19, 20, 27, 29, 30, 31, 36, 39]
UNSIGNED32 = [24, 35, 38, 51, 58, 59]
TEXT = [12, 14, 15, 17, 18, 40, 56, 64, 66, 67]
OPAQUE = [43, 47, 55, 60]  # and 61
RETIRED = [8, 10, 34]  # request 10
UNKNOWN = RETIRED + [62, 63, *range(77, 82), *range(83, 121), *range(122, 255)]


def ramp(count):
    """The bytes 1, 2, 3 .. in hex."""
    return bytes((i + 1) % 256 for i in range(count)).hex()


def total(bytes_):
    """A number for a run of bytes: each byte adds itself to 31 times what was there."""
    number = 0
    for byte in bytes_:
        number = (number * 31 + byte) % 1000003
    return number
