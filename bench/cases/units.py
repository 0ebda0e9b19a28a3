"""Units of 16 bits, as the program tells them."""

from dexfile import units_of


def told_units(units):
    """Units, or a text by its units: those that are no letter of ASCII, and the backslash, as four digits."""
    units = units_of(units) if isinstance(units, str) else units
    return ''.join(chr(u) if 32 <= u < 127 and u != 92 else '\\u%04x' % u for u in units)
