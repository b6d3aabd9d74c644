"""Checks that are counted. The first that does not hold ends the run."""

counted = 0


class Failed(Exception):
    """A check did not hold."""


def check(holds, otherwise):
    global counted
    counted += 1
    if not holds:
        raise Failed(otherwise)


def same(came, expected, what):
    check(came == expected, f"{what}: {shown(came)} came, and {shown(expected)} should")


def shown(value):
    return value.hex().upper() or "no bytes" if isinstance(value, bytes) else repr(value)
