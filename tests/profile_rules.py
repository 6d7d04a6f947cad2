"""The meter's reply profile by the second reader (reader.py), written from request 13 of document 02 alone."""

from reader import Refused, join, read, row_of


def formed(options, code):
    """"present and well-formed", every code known"""
    if code not in options:
        return False
    _, _, length, value = row_of(code)
    data = options[code].data
    return length(code, len(data)) and (value is None or value(code, data))


def profile(m):
    """(rules broken, refusal, place)"""
    try:
        met = read(m)
    except Refused as fault:
        return (0, *fault.args)
    options = join(met)
    if not formed(options, 53) or options[53].data[0] not in (2, 5):
        return 0, 25, 0
    broken = [not formed(options, 51), not formed(options, 54), 50 in options, 55 in options, 57 in options, not formed(options, 1), not formed(options, 3)]
    codes = [piece.code for piece in met]
    broken.append(1 in codes and 3 in codes and codes.index(3) < codes.index(1))
    return sum(1 << i for i, b in enumerate(broken) if b), 0, 0
