"""A slow reading of recorded sessions, to judge the program by: written from the standards and the formats alone, one definition after another, each over whole
lists. Nothing here is fast, and nothing is taken from the program.

RFC 6396 (records, dumps), RFC 4271 (messages, faults, decision), RFC 7606 (faults handled otherwise), RFC 1997 (communities), RFC 8092 (large communities),
RFC 6811 (origin validation), RFC 7947 (one table a client).
"""

import functools
from collections import namedtuple

import slow_lists

# A list or a VRP file, as a configuration names it.
File = namedtuple("File", "name octets")
# Import policy: the value of each key as the configuration has it, a File for `vrps`; None where the key is missing.
Import = namedtuple("Import", "prefix_length refuse_prefixes max_as_path refuse_as enforce_first_as vrps", defaults=[None] * 6)
# subnet: (address, length) or None; large_communities: whether policy reads large communities; import_policy: an Import, or None without such a table
Server = namedtuple("Server", "asn address id subnet large_communities import_policy", defaults=(False, None))
# prefix_list, as_list: a File or None; import_: whether import policy and the lists are asked of the peer's routes
Peer = namedtuple("Peer", "name asn address id preference refuse_from prefix_list as_list import_", defaults=(None, None, True))
Record = namedtuple("Record", "time type subtype body")
Change = namedtuple("Change", "time kind prefix attributes reason")  # kind: announce, withdraw, down, close
Route = namedtuple("Route", "time attributes")
Fault = namedtuple("Fault", "code subcode")


def number(octets):
    return int.from_bytes(octets, "big")


# ---- records (RFC 6396, sections 2, 3 and 4.4)


def records(file):
    """The whole records at the front of a file, and how it ends: end, M1 or M2."""
    found, place = [], 0
    while len(file) - place >= 12:
        length = number(file[place + 8 : place + 12])
        if len(file) - place - 12 < length:
            return found, "mrt M2"
        header = file[place : place + 12]
        body = file[place + 12 : place + 12 + length]
        found.append(Record(number(header[0:4]), number(header[4:6]), number(header[6:8]), body))
        place += 12 + length
    return found, "end" if place == len(file) else "mrt M1"


def up_to(file, time):
    """The whole records of a file before the first one that is later."""
    place = 0
    for record in records(file)[0]:
        if record.time > time:
            break
        place += 12 + len(record.body)
    return file[:place]


def entry(record):
    """What a record is: ("other",), ("fault", reason), ("message", asn, address, octets) or ("state", asn, address, old, new)."""
    body = record.body
    if record.type not in (16, 17):
        return ("other",)
    if record.type == 17:
        if len(body) < 4:
            return ("fault", "mrt M4")
        body = body[4:]
    if record.subtype not in (4, 5):
        return ("other",)
    if len(body) < 12:
        return ("fault", "mrt M3")
    if number(body[10:12]) != 1:
        return ("other",)
    if len(body) < (20 if record.subtype == 4 else 24):
        return ("fault", "mrt M3")
    whose = number(body[0:4]), number(body[12:16])
    if record.subtype == 4:
        return ("message", *whose, body[20:])
    return ("state", *whose, number(body[20:22]), number(body[22:24]))


# ---- messages (RFC 4271, sections 4 and 6; RFC 7606, sections 2 to 7)


def prefixes(field):
    """The prefixes that a field lists, bits behind the length cleared; None where it is no list."""
    found, place = [], 0
    while place < len(field):
        length = field[place]
        size = (length + 7) // 8
        if length > 32 or len(field) - place - 1 < size:
            return None
        address = number(field[place + 1 : place + 1 + size] + bytes(4 - size))
        found.append((address >> (32 - length) << (32 - length), length))
        place += 1 + size
    return found


def section(field):
    """The attributes of a section as (flags, type, value), and whether a rest follows them that is no attribute."""
    items, place = [], 0
    while place < len(field):
        head = 4 if field[place] & 0x10 else 3
        if len(field) - place < head:
            return items, True
        length = number(field[place + 2 : place + head])
        if len(field) - place - head < length:
            return items, True
        items.append((field[place], field[place + 1], field[place + head : place + head + length]))
        place += head + length
    return items, False


def segments(value):
    """The segments of an AS_PATH as (type, AS numbers); None where it has none such."""
    found, place = [], 0
    while place < len(value):
        if len(value) - place < 2:
            return None
        kind, count = value[place], value[place + 1]
        end = place + 2 + 4 * count
        if kind not in (1, 2) or count == 0 or end > len(value):
            return None
        found.append((kind, [number(value[at : at + 4]) for at in range(place + 2, end, 4)]))
        place = end
    return found


# Optional and Transitive of each type that is recognized, and whether its length and its value are good.
RECOGNIZED = {
    1: (0x40, lambda v: len(v) == 1, lambda v: v[0] <= 2),
    2: (0x40, lambda v: True, lambda v: segments(v) is not None),
    3: (0x40, lambda v: len(v) == 4, lambda v: 0 < v[0] < 224),
    4: (0x80, lambda v: len(v) == 4, lambda v: True),
    6: (0x40, lambda v: len(v) == 0, lambda v: True),
    7: (0xC0, lambda v: len(v) == 8, lambda v: True),
    8: (0xC0, lambda v: len(v) > 0 and len(v) % 4 == 0, lambda v: True),
}
UNCHECKED = (5, 14, 15, 17, 18)
VALUE_FAULT = {1: 6, 2: 11, 3: 8}


def fault_of(item):
    """The fault of one attribute by itself (RFC 4271, section 6.3)."""
    flags, kind, value = item
    if kind in UNCHECKED:
        return None
    if kind not in RECOGNIZED:
        return None if flags & 0x80 else Fault(3, 2)
    wanted, is_length, is_value = RECOGNIZED[kind]
    if flags & 0xC0 != wanted:
        return Fault(3, 4)
    if not is_length(value):
        return Fault(3, 5)
    return None if is_value(value) else Fault(3, VALUE_FAULT[kind])


def closes_by_rfc_7606(items, place):
    """Whether the attribute at a place closes the session though faults are handled as RFC 7606 says, and by which fault."""
    flags, kind, _ = items[place]
    if kind in (it[1] for it in items[:place]):
        return Fault(3, 1) if kind in (14, 15) else None
    is_recognized = kind in RECOGNIZED or kind in UNCHECKED
    return None if is_recognized or flags & 0x80 else Fault(3, 2)


def withdraws_by_rfc_7606(items, place):
    """Whether the attribute at a place has its UPDATE treated as a withdrawal."""
    kind = items[place][1]
    if kind in (it[1] for it in items[:place]) or kind not in RECOGNIZED:
        return False
    fault = fault_of(items[place])
    return fault is not None and not (kind in (6, 7) and fault == Fault(3, 5))


def is_kept(items, place):
    """Whether the attribute at a place is kept with the route."""
    flags, kind, _ = items[place]
    if kind in UNCHECKED or kind in (it[1] for it in items[:place]) or fault_of(items[place]):
        return False
    return kind in RECOGNIZED or bool(flags & 0x40)


def header_fault(octets):
    if len(octets) < 19:
        return Fault(1, 2)
    if octets[:16] != b"\xff" * 16:
        return Fault(1, 1)
    length, kind = number(octets[16:18]), octets[18]
    if not 19 <= length <= 4096 or length != len(octets):
        return Fault(1, 2)
    if not 1 <= kind <= 5:
        return Fault(1, 3)
    least = {1: 29, 2: 23, 3: 21, 4: 19, 5: 19}[kind]
    if length < least or (kind == 4 and length > least):
        return Fault(1, 2)
    return None


def update(octets, errors):
    """A Fault, or (withdrawn prefixes, kept attributes, NLRI, whether it is treated as a withdrawal)."""
    body = octets[19:]
    if number(body[0:2]) + 23 > len(octets):
        return Fault(3, 1)
    withdrawn, body = body[2 : 2 + number(body[0:2])], body[2 + number(body[0:2]) :]
    if len(withdrawn) + number(body[0:2]) + 23 > len(octets):
        return Fault(3, 1)
    attributes, nlri = body[2 : 2 + number(body[0:2])], body[2 + number(body[0:2]) :]
    items, has_rest = section(attributes)
    is_treated = False
    for place, item in enumerate(items):
        if errors == "rfc7606":
            fault = closes_by_rfc_7606(items, place)
            is_treated = is_treated or withdraws_by_rfc_7606(items, place)
        elif item[1] in (it[1] for it in items[:place]):
            fault = Fault(3, 1)
        else:
            fault = fault_of(item)
        if fault:
            return fault
    if has_rest:
        return Fault(3, 1)
    if nlri and not {1, 2, 3} <= {it[1] for it in items}:
        if errors != "rfc7606":
            return Fault(3, 3)
        is_treated = True
    lists = prefixes(withdrawn), prefixes(nlri)
    if None in lists:
        return Fault(3, 10)
    kept = {it[1]: it for place, it in enumerate(items) if is_kept(items, place)}
    return lists[0], kept, lists[1], is_treated


# ---- the changes of one peer (RFC 4271, section 3.1)


def is_multicast(prefix):
    return prefix[1] >= 4 and prefix[0] >> 28 == 0b1110


def changes_of(record, peer, errors):
    """What a record says of a peer: None where it is passed over, else a list of changes, of which a close is the last."""
    read = entry(record)
    if read[0] == "fault":
        return [Change(record.time, "close", None, None, read[1])]
    if read[0] == "other" or read[1:3] != (peer.asn, peer.address):
        return None
    down = [Change(record.time, "down", None, None, None)]
    if read[0] == "state":
        return down if read[3] == 6 and read[4] != 6 else []
    octets = read[3]
    fault = header_fault(octets)
    said = fault or (update(octets, errors) if octets[18] == 2 else None)
    if isinstance(said, Fault):
        return [Change(record.time, "close", None, None, f"bgp {said.code}/{said.subcode}")]
    if said is None:
        return down if octets[18] == 3 else []
    withdrawn, kept, nlri, is_treated = said
    kind = "withdraw" if is_treated else "announce"
    found = [Change(record.time, "withdraw", it, None, None) for it in withdrawn if it not in nlri]
    found += [Change(record.time, kind, it, None if is_treated else kept, None) for it in nlri]
    return [it for it in found if not is_multicast(it.prefix)]


def session(file, peer, errors):
    """All changes that a file says of a peer, the close the last, and how many records are passed over."""
    found, passed = [], 0
    whole, end = records(file)
    for record in whole:
        said = changes_of(record, peer, errors)
        if said is None:
            passed += 1
            continue
        found += said
        if said and said[-1].kind == "close":
            return found, passed
    return found + [Change(0, "close", None, None, end)], passed


def left(changes):
    """The routes that a peer's changes leave, by prefix: those announced at a place with no later change on the prefix and no later loss."""
    if any(it.kind == "close" and it.reason != "end" for it in changes):
        return {}
    routes = {}
    for place, it in enumerate(changes):
        later = changes[place + 1 :]
        if it.kind == "announce" and not any(after.kind == "down" or after.prefix == it.prefix for after in later):
            routes[it.prefix] = Route(it.time, it.attributes)
    return routes


# ---- what is noted of a session (ours)


def said(record):
    """Of whom a record tells, and what as far as notes rest on it: start, up, update, state, loss, gone (a NOTIFICATION) or other; else None."""
    what = entry(record)
    if what[0] == "message":
        kind = what[3][18] if len(what[3]) > 18 else 0
        return what[1:3], {1: "start", 2: "update", 3: "gone"}.get(kind, "other")
    if what[0] == "state":
        old, new = what[3:5]
        return what[1:3], "up" if new == 6 != old else "loss" if old == 6 != new else "state"
    body = record.body[4:] if record.type == 17 else record.body
    if record.type in (16, 17) and record.subtype == 1 and body[6:8] == b"\x00\x01" and len(body) > 34 and body[34] == 1:
        return (number(body[0:2]), number(body[8:12])), "start"
    return None


def notes(file, peer):
    """Whether a peer's recording begins in mid-session, and when its session began again without a recorded loss, the last time since its last loss."""
    whole = [(record.time, said(record)) for record in records(file)[0]]
    told = [(time, what[1]) for time, what in whole if what and what[0] == (peer.asn, peer.address)]
    losses = [place for place, (_, what) in enumerate(told) if what in ("loss", "gone")]
    since = told[losses[-1] + 1 :] if losses else told
    ups = [place for place, (_, what) in enumerate(since) if what in ("update", "up")]
    again = [time for place, (time, what) in enumerate(since) if what in ("start", "up") and ups and ups[0] < place]
    return bool(told) and told[0][1] in ("update", "other", "gone"), again[-1] if again else None


def down(file, peer):
    """Whether a peer's session is down at the end of its recording, by a change of state or by its last record; and since when, None where it has not begun."""
    told = [(record.time, what[1]) for record in records(file)[0] for what in [said(record)] if what and what[0] == (peer.asn, peer.address)]
    shows = [place for place, (_, what) in enumerate(told) if what in ("update", "up")]
    losses = [time for time, what in told[shows[-1] + 1 if shows else 0 :] if what in ("loss", "gone")]
    has_states = any(what in ("up", "loss", "state") for _, what in told)
    if losses:
        return has_states or told[-1][1] in ("loss", "gone"), losses[0]
    return has_states and not shows and told[0][1] not in ("update", "other", "gone"), None


def recorders(file):
    """The local AS and address of each message of an IPv4 session with four-octet AS numbers, in order."""
    found = []
    for record in records(file)[0]:
        if entry(record)[0] == "message":
            body = record.body[4:] if record.type == 17 else record.body
            found.append((number(body[4:8]), number(body[16:20])))
    return found


# ---- the path and the communities of a route


def path(route):
    return segments(route.attributes[2][2])


def path_length(route):
    return sum(1 if kind == 1 else len(numbers) for kind, numbers in path(route))


def first_as(route):
    """The first AS number of a path that begins with an AS_SEQUENCE, else None."""
    return path(route)[0][1][0] if path(route) and path(route)[0][0] == 2 else None


def communities(route):
    value = route.attributes[8][2] if 8 in route.attributes else b""
    return {number(value[at : at + 4]) for at in range(0, len(value), 4)}


def large_communities(route):
    """The large communities of a route; none where the value is no list of them (ours: it is no fault)."""
    value = route.attributes[32][2] if 32 in route.attributes else b""
    if len(value) % 12:
        return set()
    return {tuple(number(value[at + part : at + part + 4]) for part in (0, 4, 8)) for at in range(0, len(value), 12)}


# ---- what is not taken in: import policy (RFC 4271, section 9.1.1; RFC 6811, section 2)

vrps = functools.cache(slow_lists.vrps)
prefix_entries = functools.cache(slow_lists.prefix_entries)
as_entries = functools.cache(slow_lists.as_entries)


def lists(server, peers):
    """The VRP file and the lists, in the order in which they are read, each with what reads it."""
    files = [(server.import_policy.vrps, vrps)] if server.import_policy else []
    files += [pair for peer in peers for pair in ((peer.prefix_list, prefix_entries), (peer.as_list, as_entries))]
    return [(file, read) for file, read in files if file]


def empty_lists(server, peers):
    """Those without an entry of IPv4."""
    return [file for file, read in lists(server, peers) if not read(file.octets)]


def covers(it, prefix):
    """Whether the prefix of a pattern or of a VRP is the same as another one, or less specific."""
    return it.length <= prefix[1] and it.address >> (32 - it.length) == prefix[0] >> (32 - it.length)


def matches(pattern, prefix):
    return covers(pattern, prefix) and pattern.least <= prefix[1] <= pattern.most


def origin_as(server, route):
    """The origin AS: the server's for an empty path, and None where the final segment is an AS_SET."""
    if not path(route):
        return server.asn
    kind, numbers = path(route)[-1]
    return numbers[-1] if kind == 2 else None


def covering_vrps(server, prefix):
    """The VRPs of the prefix or of less specific ones, each once, in ascending order."""
    return sorted({it for it in vrps(server.import_policy.vrps.octets) if covers(it, prefix)})


def validity(server, prefix, route):
    """Whether a route is valid, invalid or not_found by the VRPs. One of AS 0 matches no route."""
    covering = covering_vrps(server, prefix)
    if any(prefix[1] <= it.most and 0 != it.asn == origin_as(server, route) for it in covering):
        return "valid"
    return "invalid" if covering else "not_found"


def failed_conditions(server, peer, prefix, route):
    """Each condition of the import policy and of the peer's lists that a route fails, with what is told of it, in the order of the conditions."""
    policy = server.import_policy or Import()
    bounds = policy.prefix_length or {}
    if not bounds.get("min", 0) <= prefix[1] <= bounds.get("max", 32):
        yield "prefix_length", prefix[1]
    matching = [it for it in map(slow_lists.pattern, policy.refuse_prefixes or ()) if matches(it, prefix)]
    if matching:
        yield "refused_prefix", max(matching, key=lambda it: (it.length, it.least, it.most))
    if policy.max_as_path is not None and path_length(route) > policy.max_as_path:
        yield "path_length_limit", path_length(route)
    ranges = list(map(slow_lists.as_range, policy.refuse_as or ()))
    refused = [asn for _, numbers in path(route) for asn in numbers if any(asn in it for it in ranges)]
    if refused:
        yield "refused_as", refused[0]
    if policy.enforce_first_as and first_as(route) != peer.asn:
        yield "first_as", first_as(route)
    if peer.prefix_list and not any(matches(it, prefix) for it in prefix_entries(peer.prefix_list.octets)):
        yield "prefix_list", None
    origin = origin_as(server, route)
    if peer.as_list and not any(origin in it for it in as_entries(peer.as_list.octets)):
        yield "origin_as", origin
    if policy.vrps and validity(server, prefix, route) == "invalid":
        yield "rpki_invalid", (origin, covering_vrps(server, prefix))


def filtered(server, peer, prefix, route):
    """The reason why a route is not taken in, and what is told of it; None where it is. Eligibility is not asked."""
    return next(failed_conditions(server, peer, prefix, route), None) if peer.import_ else None


def filtered_peers(server, peers, files, errors):
    """The peers that left routes, none of which is taken in."""
    ribs = [left(session(file, peer, errors)[0]) for peer, file in zip(peers, files)]
    return [peer for peer, rib in zip(peers, ribs) if rib and all(filtered(server, peer, *it) for it in rib.items())]


# ---- the table of a client (RFC 4271, section 9.1; RFC 7947, section 2.3)


def is_eligible(server, peer, route):
    next_hop = number(route.attributes[3][2])
    if any(server.asn in numbers for _, numbers in path(route)) or next_hop == server.address:
        return False
    if server.subnet is None or next_hop == peer.address:
        return True
    address, length = server.subnet
    return next_hop >> (32 - length) == address >> (32 - length)


def is_permitted(server, client, peer, route):
    def has(high, low):
        return high < 65536 and low < 65536 and high * 65536 + low in communities(route)

    def has_large(first, second):
        return server.large_communities and (server.asn, first, second) in large_communities(route)

    if peer.name in client.refuse_from or has(0, client.asn) or has_large(0, client.asn):
        return False
    if has(server.asn, client.asn) or has_large(1, client.asn):
        return True
    return not (has(0, server.asn) or has_large(0, 0))


def neighbour(peer, route):
    return peer.asn if first_as(route) is None else first_as(route)


def is_candidate(server, client, peer, prefix, route):
    return is_eligible(server, peer, route) and not filtered(server, peer, prefix, route) and is_permitted(server, client, peer, route)


def med(route):
    return number(route.attributes[4][2]) if 4 in route.attributes else 0


def best(candidates):
    """Of candidates (peer, route) the one that six eliminations leave, each from the whole set that the one before left; None where there is none."""
    steps = [
        lambda one, other: one[0].preference > other[0].preference,
        lambda one, other: path_length(one[1]) < path_length(other[1]),
        lambda one, other: one[1].attributes[1][2] < other[1].attributes[1][2],
        lambda one, other: neighbour(*one) == neighbour(*other) and med(one[1]) < med(other[1]),
        lambda one, other: one[0].id < other[0].id,
        lambda one, other: one[0].address < other[0].address,
    ]
    for beats in steps:
        candidates = [it for it in candidates if not any(beats(other, it) for other in candidates)]
    return candidates[0] if candidates else None


def table(server, peers, ribs, client):
    """The rows of a client: (prefix, number of the sender, route) in the order of the prefixes."""
    rows = []
    for prefix in sorted({it for rib in ribs for it in rib}):
        candidates = [
            (peer, rib[prefix])
            for peer, rib in zip(peers, ribs)
            if peer is not client and prefix in rib and is_candidate(server, client, peer, prefix, rib[prefix])
        ]
        chosen = best(candidates)
        if chosen:
            rows.append((prefix, peers.index(chosen[0]), chosen[1]))
    return rows


# ---- dumps and report (RFC 6396, section 4.3)


def written(attributes):
    octets = b""
    for kind in sorted(attributes):
        flags, _, value = attributes[kind]
        shown = RECOGNIZED[kind][0] | (flags & 0x20 if kind in (7, 8) else 0) if kind in RECOGNIZED else 0xE0
        is_long = len(value) > 255
        octets += bytes([shown | (0x10 if is_long else 0), kind]) + len(value).to_bytes(2 if is_long else 1, "big") + value
    return octets


def spelled(time, subtype, body):
    return time.to_bytes(4, "big") + bytes([0, 13, 0, subtype]) + len(body).to_bytes(4, "big") + body


def dump(server, peers, client, rows, time):
    index = server.id.to_bytes(4, "big") + len(client.name).to_bytes(2, "big") + client.name.encode() + len(peers).to_bytes(2, "big")
    for peer in peers:
        index += b"\x02" + peer.id.to_bytes(4, "big") + peer.address.to_bytes(4, "big") + peer.asn.to_bytes(4, "big")
    octets = spelled(time, 1, index)
    for place, ((address, length), sender, route) in enumerate(rows):
        body = place.to_bytes(4, "big") + bytes([length]) + address.to_bytes(4, "big")[: (length + 7) // 8] + b"\x00\x01"
        body += sender.to_bytes(2, "big") + route.time.to_bytes(4, "big")
        body += len(written(route.attributes)).to_bytes(2, "big") + written(route.attributes)
        octets += spelled(time, 2, body)
    return octets


def outcome(server, peers, files, time=0, errors="rfc4271"):
    """The report of a run, and each client's dump by name."""
    sessions = [session(file, peer, errors) for peer, file in zip(peers, files)]
    ribs = [left(changes) for changes, _ in sessions]
    tables = [table(server, peers, ribs, client) for client in peers]
    report = [f"peer {peer.name} changes {len(changes)} passed {passed} close {changes[-1].reason}" for peer, (changes, passed) in zip(peers, sessions)]
    report += [f"table {client.name} rows {len(rows)}" for client, rows in zip(peers, tables)]
    dumps = {client.name: dump(server, peers, client, rows, time) for client, rows in zip(peers, tables)}
    return "".join(f"{line}\n" for line in report), dumps
