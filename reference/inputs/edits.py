"""Edits of texts: of lines, of fields, and of bytes."""

NUMBERS = [b"0", b"1", b"15", b"16", b"17", b"31", b"32", b"33", b"64", b"65", b"255",
           b"256", b"257", b"4095", b"4096", b"4097", b"65535", b"65536", b"1000000",
           b"1000001", b"4294967295", b"4294967296", b"18446744073709551615",
           b"18446744073709551616", b"99999999999999999999999999", b"00", b"01", b"007",
           b"+1", b"-1", b"1.0", b"0x1", b"1e3", b"", b" ", b"\t1", b"1 ", b"\xd9\xa1"]
BYTES = [b"\r", b"\x00", b"\xff", b"\xc3\xa9", b"\t", b" ", b"\x0b", b"\x7f", b"@", b"/",
         b".", b"0", b"a", b"A", b"z", b"-", b"\n", b"`", b"{", b":", b"g", b"9"]
WORDS = [b"defined", b"period", b"groups", b"seed", b"router", b"link", b"prefix", b"feed",
         b"end", b"cmd", b"down", b"up", b"flood", b"ospf", b"rip", b"bgp", b"msg", b"tick",
         b"Flood", b"END", b"a", b"b", b"nobody", b"abcdefghijklmnop", b"abcdefghijklmnopq",
         b"9a", b"a-b", b"A", b"trace", b"journal", b"#", b"10.0.0.0/8", b"10.0.0.1/8",
         b"0.0.0.0/0", b"10.0.0.0/33", b"256.0.0.0/8", b"10.0.0/8", b"10.0.0.0.0/8",
         b"10.0.0.0", b"10.0.0.0/8/8", b"10.00.0.0/8", b"255.255.255.255/32",
         b"1.2.3.4/31", b"@0", b"@", b"@4096", b"@18446744073709551616", b"@00", b"00", b"0",
         b"4142", b"414", b"4G", b"AB", b"ff" * 255, b"ff" * 256, b"ff" * 300, b"f" * 511]


def edit_lines(rng, lines):
    """One edit of a whole line."""
    lines = list(lines) or [b""]
    place = rng.randrange(len(lines))
    what = rng.randrange(6)
    if what == 0:
        del lines[place]
    elif what == 1:
        lines.insert(place, lines[place])
    elif what == 2:
        other = rng.randrange(len(lines))
        lines[place], lines[other] = lines[other], lines[place]
    elif what == 3:
        lines.insert(rng.randrange(len(lines) + 1), lines[place])
    elif what == 4:
        lines.insert(place, b"")
    else:
        lines.insert(rng.randrange(len(lines) + 1), lines.pop(place))
    return lines


def edit_field(rng, lines):
    """One edit of a field of a line."""
    lines = list(lines) or [b""]
    place = rng.randrange(len(lines))
    fields = lines[place].split(b" ")
    spot = rng.randrange(len(fields))
    what = rng.randrange(7)
    if what == 0:
        fields[spot] = rng.choice(WORDS)
    elif what in (1, 2):
        fields[spot] = new_number(rng, fields[spot])
    elif what == 3:
        fields.insert(spot, rng.choice((b"", fields[spot], rng.choice(WORDS))))
    elif what == 4:
        del fields[spot]
    elif what == 5:
        other = rng.choice(lines).split(b" ")
        fields[spot] = rng.choice(other)
    else:
        fields.append(rng.choice((b"", b"1", b"#")))
    lines[place] = b" ".join(fields)
    return lines


def new_number(rng, field):
    """The field with another number in it, also in an address or a group."""
    number = rng.choice(NUMBERS)
    if field[:1] == b"@":
        return b"@" + number
    if b"." in field:
        parts = field.replace(b"/", b".").split(b".")
        parts[rng.randrange(len(parts))] = number
        return b".".join(parts[:-1]) + b"/" + parts[-1]
    return number


def edit_bytes(rng, text):
    """One edit of bytes: one put in, taken out or changed, or the end cut off."""
    place = rng.randrange(len(text) + 1)
    what = rng.randrange(5)
    if what == 0:
        return text[:place] + rng.choice(BYTES) + text[place:]
    if what == 1:
        return text[:place] + text[place + 1:]
    if what == 2:
        return text[:place] + rng.choice(BYTES) + text[place + 1:]
    if what == 3:
        return text[:place]
    return text[:-1] if text[-1:] == b"\n" else text + b"\n"
