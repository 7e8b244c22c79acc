"""How single fields are spelled: decimals, hexadecimal fields and names."""

U64_MAX = (1 << 64) - 1

DIGITS = b"0123456789"
HEX_DIGITS = b"0123456789abcdef"
LOWER = b"abcdefghijklmnopqrstuvwxyz"


def decimal(field):
    """The number that a decimal spells, of any size; None where it is none.

    A decimal is `0` or digits without a leading zero.
    """
    if not field.isdigit():
        return None
    if len(field) > 1 and field[:1] == b"0":
        return None
    return sum_of_digits(field)


def sum_of_digits(field):
    """The value of a run of decimal digits, also a very long one."""
    if len(field) > 4000:
        return U64_MAX + 1
    return int(field)


def unhex(field):
    """The bytes of a hexadecimal field; None where it is none."""
    if not field or len(field) % 2 != 0:
        return None
    if field.translate(None, HEX_DIGITS):
        return None
    return bytes.fromhex(field.decode("ascii"))


def is_name(field):
    """Whether the field is 1 to 16 of a to z and 0 to 9, a letter first."""
    if not 1 <= len(field) <= 16 or field[0] not in LOWER:
        return False
    return all(byte in LOWER or byte in DIGITS for byte in field)
