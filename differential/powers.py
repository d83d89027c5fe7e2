"""Cases of power_speed, and the lines that it must print, by Python's own powers."""

P = 2147483647


def case(key, exponent, turns):
    """The bytes of a case."""
    return key.to_bytes(4, "little") + exponent.to_bytes(8, "little") + turns.to_bytes(4, "little")


def turned(key, exponent, turns):
    """What a key is after so many turns: each makes it its power and 1 more."""
    for _ in range(turns):
        key = (pow(key, exponent, P) + 1) % P
    return key


def lines(cases):
    """What must be printed."""
    return b"".join(b"%d\n" % turned(*one) for one in cases)
