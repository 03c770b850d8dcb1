"""Reads tables (TABLE_DUMP_V2; RFC 6396, section 4.3) of IPv4 unicast routes, to judge the programs by: written from the formats alone, with the slow reading."""

from collections import namedtuple

import slow_reading

Row = namedtuple("Row", "prefix asn address time attributes")  # attributes: the value of each, by its type

ORIGINS = ("IGP", "EGP", "INCOMPLETE")


def number(octets):
    return int.from_bytes(octets, "big")


def address_text(octets):
    return ".".join(map(str, octets))


def numbers(value):
    """The numbers of four octets in a value."""
    return [number(value[at : at + 4]) for at in range(0, len(value), 4)]


def peers_in(body):
    """The AS number and the address of each peer in a PEER_INDEX_TABLE (section 4.3.1). A peer of IPv6 has an address of 16 octets."""
    place = 6 + number(body[4:6])
    count, place, found = number(body[place : place + 2]), place + 2, []
    for _ in range(count):
        kind = body[place]
        address, asn = (16 if kind & 1 else 4), (4 if kind & 2 else 2)
        where = place + 5 + address
        found.append((number(body[where : where + asn]), body[place + 5 : where]))
        place = where + asn
    return found


def prefix_in(body):
    """The octets of the prefix in a RIB_IPV4_UNICAST, behind its sequence number, and the place of the first entry (section 4.3.2)."""
    size = (body[4] + 7) // 8
    return body[5 : 5 + size], 5 + size + 2


def entries(body):
    """The place of each entry in a RIB_IPV4_UNICAST (section 4.3.4)."""
    _, place = prefix_in(body)
    while place < len(body):
        yield place
        place += 8 + number(body[place + 6 : place + 8])


def rows(table):
    """The rows of a table, a route each, in their order."""
    peers, found = [], []
    for record in slow_reading.records(table)[0]:
        body = record.body
        if (record.type, record.subtype) == (13, 1):
            peers = peers_in(body)
        if (record.type, record.subtype) != (13, 2):
            continue
        prefix = f"{address_text(prefix_in(body)[0].ljust(4, bytes(1)))}/{body[4]}"
        for place in entries(body):
            asn, address = peers[number(body[place : place + 2])]
            items, _ = slow_reading.section(body[place + 8 : place + 8 + number(body[place + 6 : place + 8])])
            found.append(Row(prefix, asn, address_text(address), number(body[place + 2 : place + 6]), {kind: value for _, kind, value in items}))
    return found


def at_its_time(table):
    """A table with the time of each record as the Originated Time of its routes (section 4.3.4)."""
    found = b""
    for record in slow_reading.records(table)[0]:
        body = bytearray(record.body)
        for place in entries(body) if record.subtype == 2 else ():
            body[place + 2 : place + 6] = record.time.to_bytes(4, "big")
        found += slow_reading.spelled(record.time, record.subtype, body)
    return found


def path_text(value):
    """An AS_PATH as the looking glass shows it: the AS numbers of a set between braces."""
    return " ".join("{" + ",".join(map(str, asns)) + "}" if kind == 1 else " ".join(map(str, asns)) for kind, asns in slow_reading.segments(value))


def shown(row, names):
    """The object that `table --json` of the looking glass must have for a row, the peers having these names by their addresses."""
    large = numbers(row.attributes.get(32, b"")) if len(row.attributes.get(32, b"")) % 12 == 0 else []
    return {
        "prefix": row.prefix,
        "peer": names[row.address],
        "as": row.asn,
        "time": row.time,
        "origin": ORIGINS[row.attributes[1][0]],
        "path": path_text(row.attributes[2]),
        "next_hop": address_text(row.attributes[3]),
        "med": number(row.attributes[4]) if 4 in row.attributes else None,
        "communities": [f"{it >> 16}:{it & 0xFFFF}" for it in numbers(row.attributes.get(8, b""))],
        "large_communities": [":".join(map(str, large[at : at + 3])) for at in range(0, len(large), 3)],
    }
