"""A slow reading of VRP files and of lists of prefixes and AS numbers, to judge the programs by: written from the forms that rpki-client, Routinator and bgpq4
write, and from nothing of the program. A file of another form raises Wrong."""

import csv
import json
import re
from collections import namedtuple

# Prefixes from address/length to those of `most` bits inside it are authorized for an AS number (RFC 6811, section 2).
Vrp = namedtuple("Vrp", "address length most asn")
# The prefixes of `least` to `most` bits inside address/length.
Pattern = namedtuple("Pattern", "address length least most")

BLANK = " \t\r\n"
NUMBER = r"(0|[1-9][0-9]*)"
PREFIX = rf"{NUMBER}\.{NUMBER}\.{NUMBER}\.{NUMBER}/{NUMBER}"


class Wrong(ValueError):
    """Where a file is wrong, and why."""


def need(holds, why):
    if not holds:
        raise Wrong(why)


def each(kind, rows, read):
    """What is read of rows (number, row), without those that are passed over (None); a row that is wrong is told by its number."""
    found = []
    for place, row in rows:
        try:
            found.append(read(row))
        except (ValueError, LookupError, TypeError, AttributeError) as why:
            raise Wrong(f"{kind} {place}: {why}") from why
    return [it for it in found if it is not None]


# ---- prefixes and AS numbers


def prefix(text):
    """The address and the length of a prefix."""
    found = re.fullmatch(PREFIX, text)
    need(found, f"{text} is no prefix")
    *parts, length = map(int, found.groups())
    need(max(parts) < 256 and length <= 32, f"{text} is no prefix")
    address = int.from_bytes(bytes(parts), "big")
    need(address % 2 ** (32 - length) == 0, f"{text} has host bits")
    return address, length


def pattern(text):
    """A pattern as BIRD writes it: a prefix, behind it `+`, `{least,most}` or nothing."""
    found = re.fullmatch(rf"([^+{{}}]*)(\+|\{{{NUMBER},{NUMBER}\}})?", text)
    need(found, f"{text} is no pattern")
    address, length = prefix(found[1])
    least, most = (length, 32 if found[2] else length) if found[3] is None else (int(found[3]), int(found[4]))
    need(length <= least <= most <= 32, f"{text} has no such lengths")
    return Pattern(address, length, least, most)


def as_number(value):
    """An AS number, of a number or of its digits."""
    number = int(value) if isinstance(value, str) and re.fullmatch(NUMBER, value) else value
    need(type(number) is int and 0 <= number < 2**32, f"{value} is no AS number")
    return number


def as_range(value):
    """The AS numbers of a number, of its digits or of `FIRST-LAST`."""
    first, *last = value.split("-") if isinstance(value, str) else [value]
    need(len(last) < 2, f"{value} is no range")
    numbers = range(as_number(first), as_number(last[0] if last else first) + 1)
    need(len(numbers) > 0, f"{value} is no range")
    return numbers


def length_value(value):
    """A length in JSON."""
    need(type(value) is int, f"{value} is no length")
    return value


# ---- files


def is_json(text):
    return text.lstrip(BLANK).startswith("{")


def text_of(octets):
    """The text of a file, without a byte order mark."""
    try:
        return octets.decode("utf-8-sig")
    except UnicodeDecodeError as why:
        raise Wrong("no UTF-8") from why


def member(text, name):
    """The rows (number, row) of a list in the object that a JSON text is: of that with a name, or of all its lists in turn where there is no name."""
    try:
        whole = json.loads(text)
    except ValueError as why:
        raise Wrong("no JSON") from why
    lists = list(whole.values()) if name is None else [whole.get(name)]
    need(all(isinstance(it, list) for it in lists), "no list")
    return enumerate((row for rows in lists for row in rows), 1)


def lines(text):
    """The lines (number, line) of a text that have more than blanks and a comment, without these."""
    bare = ((place, line.split("#")[0].strip(BLANK)) for place, line in enumerate(text.split("\n"), 1))
    return [(place, line) for place, line in bare if line]


def vrps(octets):
    """The VRPs of a file, as CSV or JSON; those of IPv6 are passed over."""
    text = text_of(octets)
    if is_json(text):
        return each("row", member(text, "roas"), lambda it: vrp(it["asn"], it["prefix"], length_value(it["maxLength"])))
    rows = [(place, row) for place, row in enumerate(csv.reader(text.split("\n")), 1) if any(it.strip(BLANK) for it in row)]
    if not rows:
        return []
    need(rows[0][1][0].strip(BLANK) == "ASN", f"line {rows[0][0]}: no titles")
    return each("line", rows[1:], lambda it: vrp(it[0].strip(BLANK), it[1].strip(BLANK), it[2].strip(BLANK)))


def vrp(asn, text, most):
    """A VRP, of the fields of its row."""
    if ":" in text:
        return None
    address, length = prefix(text)
    number = as_number(re.sub("^(AS|as)", "", asn) if isinstance(asn, str) else asn)
    most = as_number(most)
    need(length <= most <= 32, f"{most} is no maximum of {text}")
    return Vrp(address, length, most, number)


def prefix_entries(octets):
    """The patterns of a list of prefixes, as JSON or text; those of IPv6 are passed over."""
    text = text_of(octets)
    if is_json(text):
        return each("row", member(text, None), entry)
    return each("line", lines(text), lambda it: None if ":" in it else pattern(it))


def entry(row):
    """The pattern of an entry that bgpq4 writes."""
    if ":" in row["prefix"]:
        return None
    address, length = prefix(row["prefix"])
    bounds = row.get("greater-equal"), row.get("less-equal")
    if bounds == (None, None):
        return Pattern(address, length, length, length)
    need(row.get("exact", False) is False, "exact beside bounds")
    least, most = length if bounds[0] is None else length_value(bounds[0]), 32 if bounds[1] is None else length_value(bounds[1])
    need(length <= least <= most <= 32, f"{least} to {most} are no lengths of {row['prefix']}")
    return Pattern(address, length, least, most)


def as_entries(octets):
    """The ranges of AS numbers of a list, as JSON or text."""
    text = text_of(octets)
    if is_json(text):
        return each("row", member(text, None), listed_as)
    return each("line", lines(text), lambda it: as_range(re.sub("^AS", "", it)))


def listed_as(row):
    """The AS number that bgpq4 writes, as a range."""
    need(type(row) is int, f"{row} is no AS number")
    return as_range(row)
