"""The routes that peers send: as recorded UPDATEs, and as the rows that a dump for a client must have of them.

The rows are what is meant. They are written down here from the routes, never from a dump.
"""
import ipaddress
import random
import struct
from typing import NamedTuple, Optional

SERVER_AS = 64500
SERVER = "192.0.2.1"

# name, AS number, address: b is the client, the others send
PEERS = (("a", 64501, "192.0.2.11"), ("b", 64502, "192.0.2.12"), ("c", 64503, "192.0.2.13"), ("d", 4200000004, "192.0.2.14"))
CLIENT = 1
SENDERS = (0, 2, 3)

SET, SEQUENCE = 1, 2
ORIGIN, AS_PATH, NEXT_HOP, MED, LOCAL_PREF, ATOMIC_AGGREGATE, AGGREGATOR, COMMUNITIES = range(1, 9)
OPTIONAL, TRANSITIVE, PARTIAL, EXTENDED_LENGTH = 0x80, 0x40, 0x20, 0x10
NO_EXPORT = 0xFFFFFF01


class Row(NamedTuple):
    """A route and where it comes from. `others` are unrecognized transitive attributes, by type; `partial` are the types with the Partial bit."""
    prefix: str
    time: int
    peer: int = 0
    path: tuple = ((SEQUENCE, (64501,)),)
    next_hop: str = "192.0.2.11"
    origin: int = 0
    med: Optional[int] = None
    communities: tuple = ()
    atomic: bool = False
    aggregator: Optional[tuple] = None
    others: tuple = ()
    partial: tuple = ()

    def key(self):
        """The order of a dump: address, then length."""
        network = ipaddress.ip_network(self.prefix)
        return int(network.network_address), network.prefixlen


def address(text):
    return ipaddress.IPv4Address(text).packed


def numbers(values):
    return b"".join(struct.pack(">I", value) for value in values)


def attribute(flags, kind, value):
    if flags & EXTENDED_LENGTH or len(value) > 255:
        return struct.pack(">BBH", flags | EXTENDED_LENGTH, kind, len(value)) + value
    return struct.pack(">BBB", flags, kind, len(value)) + value


def sent_attributes(row):
    """The attributes of a row as the peer sends them, with some that are not passed on: LOCAL_PREF, and an optional one that is not transitive."""
    partial = lambda kind: PARTIAL if kind in row.partial else 0
    path = b"".join(bytes([kind, len(members)]) + numbers(members) for kind, members in row.path)
    sent = [
        attribute(TRANSITIVE, ORIGIN, bytes([row.origin])),
        attribute(TRANSITIVE, AS_PATH, path),
        attribute(TRANSITIVE, NEXT_HOP, address(row.next_hop)),
        attribute(TRANSITIVE, LOCAL_PREF, numbers([200])),
        attribute(OPTIONAL, 98, b"dropped"),
    ]
    if row.med is not None:
        sent.append(attribute(OPTIONAL, MED, numbers([row.med])))
    if row.atomic:
        sent.append(attribute(TRANSITIVE, ATOMIC_AGGREGATE, b""))
    if row.aggregator:
        value = numbers(row.aggregator[:1]) + address(row.aggregator[1])
        sent.append(attribute(OPTIONAL | TRANSITIVE | partial(AGGREGATOR), AGGREGATOR, value))
    if row.communities:
        sent.append(attribute(OPTIONAL | TRANSITIVE | EXTENDED_LENGTH | partial(COMMUNITIES), COMMUNITIES, numbers(row.communities)))
    sent += [attribute(OPTIONAL | TRANSITIVE, kind, value) for kind, value in row.others]
    return sent


def written_attributes(row):
    """The attributes that a dump must have of a row: type, flags and value, in ascending type (RFC 7947, section 2.2; RFC 4271, section 5)."""
    written = [(kind, flags & ~EXTENDED_LENGTH, value) for kind, flags, value in map(parts, sent_attributes(row)) if kind not in (LOCAL_PREF, 98)]
    marked = [(kind, flags | PARTIAL if kind > COMMUNITIES else flags, value) for kind, flags, value in written]
    return sorted((kind, flags | EXTENDED_LENGTH if len(value) > 255 else flags, value) for kind, flags, value in marked)


def parts(attribute):
    """The type, the flags and the value of an attribute."""
    start = 4 if attribute[0] & EXTENDED_LENGTH else 3
    return attribute[1], attribute[0], attribute[start:]


def spelled_prefix(prefix):
    """The prefix in an UPDATE. The bits past its length are set: they have no meaning."""
    network = ipaddress.ip_network(prefix)
    octets = (network.prefixlen + 7) // 8
    trailing = (1 << (8 * octets - network.prefixlen)) - 1
    value = (int(network.network_address) >> (32 - 8 * octets)) | trailing if octets else 0
    return bytes([network.prefixlen]) + value.to_bytes(octets, "big")


def record(time, peer, withdrawn=b"", attributes=b"", nlri=b"", microseconds=None):
    """An UPDATE as a BGP4MP (or, with microseconds, BGP4MP_ET) record of a peer."""
    _, peer_as, peer_address = PEERS[peer]
    update = struct.pack(">H", len(withdrawn)) + withdrawn + struct.pack(">H", len(attributes)) + attributes + nlri
    message = b"\xff" * 16 + struct.pack(">HB", len(update) + 19, 2) + update
    body = struct.pack(">IIHH", peer_as, SERVER_AS, 0, 1) + address(peer_address) + address(SERVER) + message
    if microseconds is None:
        return struct.pack(">IHHI", time, 16, 4, len(body)) + body
    return struct.pack(">IHHII", time, 17, 4, len(body) + 4, microseconds) + body


def chosen_rows():
    """Routes that try each field by itself."""
    first = (SEQUENCE, (64501, 65010, 4200000000))
    rows = [
        Row("0.0.0.0/0", 1),
        Row("128.0.0.0/1", 2, path=(first,)),
        Row("10.0.0.0/8", 3, med=0),
        Row("10.16.0.0/12", 4, med=7),
        Row("10.0.0.0/9", 5, med=4294967295),
        Row("10.1.0.0/16", 6, origin=1),
        Row("10.1.128.0/17", 7, origin=2),
        Row("10.1.2.0/24", 8, next_hop="192.0.2.77"),
        Row("10.1.2.128/25", 9, communities=(0xFBF50001,)),
        Row("10.1.2.3/32", 10, communities=(NO_EXPORT, 0xFDE80001, 0, 0x0000FBFF), partial=(COMMUNITIES,)),
        Row("10.2.0.0/16", 11, atomic=True),
        Row("10.3.0.0/16", 12, aggregator=(4200000001, "198.51.100.1")),
        Row("10.4.0.0/16", 13, atomic=True, aggregator=(65010, "198.51.100.2"), partial=(AGGREGATOR,)),
        Row("10.5.0.0/16", 14, path=(first, (SET, (65020, 65021, 65022)))),
        Row("10.6.0.0/16", 15, path=((SET, (65020, 64501)), first)),
        Row("10.7.0.0/16", 16, path=((SET, (65020,)), (SET, (65021, 65022)))),
        Row("10.8.0.0/16", 17, path=((SEQUENCE, tuple(range(65000, 65064))),)),
        Row("10.9.0.0/16", 18, path=((SEQUENCE, tuple(range(100000, 100255))), (SEQUENCE, tuple(range(200000, 200045))))),
        Row("10.10.0.0/16", 19, communities=tuple(0xFDE80000 + number for number in range(100))),
        Row("10.11.0.0/16", 20, others=((32, numbers([65000, 1, 2])),)),
        Row("10.12.0.0/16", 21, others=((99, b""),)),
        Row("10.13.0.0/16", 22, others=((99, bytes(range(256)) + b"longer"),)),
        Row("10.14.0.0/16", 23, others=((32, numbers([65000, 1, 2, 65000, 3, 4])), (99, b"unrecognized"), (200, b"\x00"))),
        Row("10.15.0.0/16", 4294967295),
        Row("10.17.0.0/16", 24, path=()),
        Row("10.18.0.0/16", 25, others=((16, bytes.fromhex("0002FDE800000007")),)),
    ]
    full = Row("203.0.113.0/24", 100, path=(first, (SET, (65030, 65031))), next_hop="192.0.2.99", origin=2, med=50,
               communities=(0xFBF50001, 0xFDE80007), atomic=True, aggregator=(65030, "198.51.100.3"), others=((99, b"unrecognized"),))
    return rows + [full, full._replace(prefix="203.0.113.0/25", med=None), full._replace(prefix="203.0.113.0/26", med=0)]


def random_rows(count):
    """Routes of the usual kind. Some prefixes come more than once: the last route is the peer's."""
    draw = random.Random(6396)
    number_of_as = lambda: draw.randrange(65536, 400000)
    for number in range(count):
        length = draw.choice((16, 20, 22, 23, 24, 24, 24, 28))
        base = 20 << 24 | number << 8 if length >= 24 else 100 << 24 | number << 12
        prefix = str(ipaddress.ip_network((base >> 32 - length << 32 - length, length)))
        path = [(SEQUENCE, (64501, *(number_of_as() for _ in range(draw.randrange(6)))))]
        if draw.random() < 0.1:
            path.append((SET, tuple(number_of_as() for _ in range(draw.randrange(1, 5)))))
        yield Row(prefix, draw.randrange(1, 2 ** 31), path=tuple(path), next_hop=f"192.0.2.{draw.randrange(2, 255)}", origin=draw.randrange(3),
                  med=draw.choice((None, None, 0, draw.randrange(2 ** 32))),
                  communities=tuple(draw.randrange(0xFBF70000, 0xFFFF0000) for _ in range(draw.randrange(5))),
                  atomic=draw.random() < 0.1, aggregator=draw.choice((None, None, (number_of_as(), "198.51.100.9"))))


def absent_rows():
    """Routes that the client does not get: its AS is refused by community, the path holds the server's AS, the NEXT_HOP is the server's or outside of the
    subnet, the prefix is multicast; and one that is withdrawn afterwards, the last."""
    yield Row("198.18.0.0/24", 50, communities=(0x0000FBF6,))
    yield Row("198.18.1.0/24", 51, path=((SEQUENCE, (64501, SERVER_AS)),))
    yield Row("198.18.2.0/24", 52, next_hop=SERVER)
    yield Row("198.18.3.0/24", 53, next_hop="198.51.100.1")
    yield Row("224.0.0.0/4", 54)
    yield Row("198.18.4.0/24", 55)


def sender(prefix):
    """Which peer sends a prefix: one alone, so that nothing is to be chosen."""
    return SENDERS[(int(ipaddress.ip_network(prefix).network_address) >> 8) % len(SENDERS)]


def configuration():
    """The exchange as the program reads it; each peer's file has the peer's name."""
    text = f'[server]\nas = {SERVER_AS}\naddress = "{SERVER}"\nsubnet = "192.0.2.0/24"\n'
    for name, number, peer_address in PEERS:
        text += f'\n[[peer]]\nname = "{name}"\nas = {number}\naddress = "{peer_address}"\nfile = "{name}.mrt"\n'
    return text


def exchange(count):
    """The recorded file of each peer, and the rows that the client's dump must have, in its order."""
    rows = [row._replace(peer=sender(row.prefix)) for row in [*chosen_rows(), *random_rows(count)]]
    absent = list(absent_rows())
    files = [bytearray() for _ in PEERS]
    for number, row in enumerate([*absent, *rows]):
        sent = sent_attributes(row)
        if number % 3 == 1:
            sent.reverse()
        microseconds = number if number % 5 == 2 else None
        files[row.peer] += record(row.time, row.peer, attributes=b"".join(sent), nlri=spelled_prefix(row.prefix), microseconds=microseconds)
    files[absent[-1].peer] += record(60, absent[-1].peer, withdrawn=spelled_prefix(absent[-1].prefix))
    latest = {row.prefix: row for row in rows}
    return files, sorted(latest.values(), key=Row.key)
