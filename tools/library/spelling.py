"""What is wrong with the spelling of a line or field of a case or journal, in words (docs/FORMATS.md, "Case text")."""

from model.case import KINDS
from model.numbers import DIGITS, HEX_DIGITS, LOWER, decimal, is_name, unhex
from model.shapes import net_of

BYTE_ORDER_MARK, UTF_16_MARKS = b"\xef\xbb\xbf", (b"\xff\xfe", b"\xfe\xff")
NO_BREAK_SPACE = b"\xc2\xa0"
MAX_NAME = 16


def quoted(line: bytes, most: int = 80) -> str:
    """A line between quotes, printable, and not too long."""
    text = line.decode("ascii", "backslashreplace")
    printable = "".join(letter if letter.isprintable() else letter.encode("unicode_escape").decode() for letter in text)
    return '"%s"' % (printable if len(printable) <= most else printable[:most - 3] + "...")


def counted(count: int, one: str, many: str) -> str:
    """`1 row`, `2 rows`."""
    return "%d %s" % (count, one if count == 1 else many)


def oddities(line: bytes, number: int) -> list[str]:
    """What of a line hardly an eye sees: marks, carriage returns, tabs, spaces, upper case, letters that aren't ASCII.

    `number` is the line's, from 1. The line has no newline.
    """
    found = []
    if number == 1 and line.startswith(UTF_16_MARKS):
        return ["the file is UTF-16; save it as ASCII or UTF-8 without a byte order mark"]
    if number == 1 and line.startswith(BYTE_ORDER_MARK):
        found.append("it begins with a byte order mark (the bytes ef bb bf); save the file without one")
        line = line.removeprefix(BYTE_ORDER_MARK)
    if b"\r" in line:
        found.append("it has a carriage return, as lines from Windows do; take them all out: tr -d '\\r'")
        line = line.replace(b"\r", b"")
    if b"\t" in line:
        found.append("it has a tab at column %d; fields are separated by one space" % (line.index(b"\t") + 1))
    if line.endswith(b" "):
        found.append("it has a space at its end")
    if line.startswith(b" "):
        found.append("it has a space at its beginning")
    if b"  " in line.strip(b" "):
        found.append("it has two spaces at column %d; fields are separated by one space" % (line.index(b"  ") + 1))
    return found + odd_letters(line)


def odd_letters(line: bytes) -> list[str]:
    """Letters that no line has."""
    if NO_BREAK_SPACE in line:
        return ["it has a no-break space at column %d in place of a space" % (line.index(NO_BREAK_SPACE) + 1)]
    strange = [place for place, byte in enumerate(line) if byte > 126 or byte < 32 and byte != 9]
    if strange:
        return ["it has the byte %02x at column %d; all letters are ASCII" % (line[strange[0]], strange[0] + 1)]
    if line != line.lower():
        return ["it has upper-case letters; words, names and hexadecimal digits are in lower case"]
    return []


def repaired(line: bytes) -> bytes:
    """The line without what `oddities` tells of."""
    line = line.removeprefix(BYTE_ORDER_MARK).replace(b"\r", b"").replace(NO_BREAK_SPACE, b" ").replace(b"\t", b" ")
    return b" ".join(line.lower().split())


# -- fields: what is wrong with one, or None


def number_fault(field: bytes) -> str | None:
    """Of a decimal."""
    if decimal(field) is not None:
        return None
    if field.isdigit():
        return "%s has a zero in front; write %d" % (field.decode(), int(field[:30]))
    if field[:1] in (b"+", b"-") and field[1:].isdigit():
        return "%s has a sign; a number has none" % field.decode()
    if field[:2] == b"0x":
        return "%s is hexadecimal; a number is decimal" % quoted(field)
    return "%s isn't a decimal number" % quoted(field)


def name_fault(field: bytes) -> str | None:
    """Of a router's name."""
    if is_name(field):
        return None
    if len(field) > MAX_NAME:
        return "the name %s has %d characters, and a name has at most %d" % (quoted(field), len(field), MAX_NAME)
    if field[:1].isdigit():
        return "the name %s begins with a digit; a name begins with a letter" % quoted(field)
    wrong = [byte for byte in field if byte not in LOWER + DIGITS]
    if wrong:
        return "the name %s has %s; a name has a to z and 0 to 9" % (quoted(field), quoted(bytes(wrong[:1])))
    return "%s isn't a name" % quoted(field)


def kind_fault(field: bytes) -> str | None:
    """Of a router's kind."""
    return None if field in KINDS else "%s is no kind of router; there are flood, ospf and rip" % quoted(field)


def net_fault(field: bytes) -> str | None:
    """Of `A.B.C.D/LEN`."""
    if net_of(field) is not None:
        return None
    address, slash, length = field.partition(b"/")
    if not slash:
        return "%s has no length; a network is A.B.C.D/LEN" % quoted(field)
    parts = address.split(b".")
    if len(parts) != 4:
        return "%s has %s before the slash, and an address has 4" % (
            quoted(field), counted(len(parts), "number", "numbers"))
    faults = [number_fault(part) for part in (*parts, length)]
    return next((fault for fault in faults if fault), "%s isn't A.B.C.D/LEN" % quoted(field))


def hex_fault(field: bytes) -> str | None:
    """Of a hexadecimal field."""
    if unhex(field) is not None:
        return None
    if not field:
        return "there are no hexadecimal digits"
    if field[:2] == b"0x":
        return "%s begins with 0x; write the digits alone" % quoted(field)
    wrong = [byte for byte in field if byte not in HEX_DIGITS]
    if wrong:
        return "%s has %s; hexadecimal digits are 0 to 9 and a to f" % (quoted(field, 40), quoted(bytes(wrong[:1])))
    return "%s has %s; each byte is two, so their number is even" % (
        quoted(field, 40), counted(len(field), "hexadecimal digit", "hexadecimal digits"))
