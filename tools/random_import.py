"""Draws import policies for random exchanges: values of all keys of `[import]`, VRP files, and lists of the peers, in each form that real tools write."""

import json

import slow_lists
import slow_reading

# Prefixes of many lengths, most of them inside others or around them.
PREFIXES = [(0x0A010000, 16), (0x0A010000, 20), (0x0A010200, 24), (0x0A010280, 25), (0xC0000200, 24), (0xC0000240, 26), (0xC0000201, 32), (0xC6330000, 16)]
PREFIXES += [(0xC6336480, 25), (0xCB007100, 28), (0xAC100000, 12), (0xAC100400, 22), (0x08000000, 7), (0x09000000, 8)]
BOGONS = ["0.0.0.0/0", "10.0.0.0/8+", "192.0.2.0/24{25,32}", "172.16.0.0/12+", "203.0.113.0/24", "203.0.113.0/24{24,28}", "10.0.0.0/8{9,24}"]
BOGONS += ["0.0.0.0/0{0,7}", "0.0.0.0/0{29,32}"]
ORIGINS = [64510, 64510, 64510, 64511, 65010, 4200000006, 0]
TRANSITS = [174, 64502, 65010, 64512]
REFUSED = [174, "174", "64512-65000", 0, "0", "4200000000-4294967295", 65010, "64512-65534", "23456-23456"]


def segments(draw, peer):
    """The segments (type, AS numbers) of an AS_PATH that begins with the peer mostly, and ends in one of some origins mostly."""
    first = [peer.asn] * draw.choice([1, 1, 1, 2, 4]) if draw.random() < 0.9 else [draw.choice(TRANSITS)]
    transits = [draw.choice(TRANSITS) for _ in range(draw.choice([0, 0, 1, 1, 2]))]
    numbers = first + transits + [draw.choice(ORIGINS) for _ in range(draw.choice([0, 1, 1, 1]))]
    some = (1, [draw.choice([peer.asn, draw.choice(ORIGINS)]), draw.choice(TRANSITS)])
    others = [[], [some], [some, (2, numbers)], [(2, numbers), some], [(2, first), some, (2, numbers)], [(2, first), (2, numbers)]]
    return draw.choice([[(2, numbers)]] * 16 + others)


def path(draw, peer):
    """The value of such an AS_PATH."""
    return b"".join(bytes([kind, len(numbers)]) + b"".join(it.to_bytes(4, "big") for it in numbers) for kind, numbers in segments(draw, peer))


def around(draw, prefix):
    """The prefix itself, or a less specific one of it."""
    address, length = prefix
    shorter = draw.choice([length, length, max(0, length - draw.randrange(9))])
    return address >> (32 - shorter) << (32 - shorter), shorter


def patterns(draw, known, share):
    """Patterns of which a share matches known prefixes."""
    found = []
    for prefix in known:
        address, length = around(draw, prefix)
        least = draw.choice([length, prefix[1], prefix[1], draw.randrange(length, 33)])
        most = draw.choice([max(least, prefix[1]), 32, draw.randrange(least, 33)])
        if draw.random() < share:
            found.append(slow_lists.Pattern(address, length, least, most))
    return found


def vrps(draw, known):
    """VRPs of the origins, of AS 0 among them, and of the server; several for one prefix."""
    found = []
    for prefix in known:
        for _ in range(draw.choice([0, 0, 0, 1, 1, 2, 4])):
            address, length = around(draw, prefix)
            most = draw.choice([length, prefix[1], prefix[1], 32, draw.randrange(length, 33)])
            found.append(slow_lists.Vrp(address, length, most, draw.choice([*ORIGINS, 64500])))
    return found


# ---- how they are spelled


def prefix_text(it):
    return ".".join(map(str, it.address.to_bytes(4, "big"))) + f"/{it.length}"


def pattern_text(draw, it):
    """A pattern as BIRD writes it; two forms say the same of some."""
    short = {(it.length, it.length): "", (it.length, 32): "+"}.get((it.least, it.most))
    return prefix_text(it) + (short if short is not None and draw.random() < 0.8 else f"{{{it.least},{it.most}}}")


def entry(draw, it):
    """A pattern as bgpq4 writes it in JSON; a bound may be left out where it says nothing."""
    found = {"prefix": prefix_text(it)}
    if it.least == it.most == it.length:
        return found | draw.choice([{"exact": True}, {"exact": True}, {}, {"greater-equal": it.least, "less-equal": it.most}])
    found["exact"] = False
    if it.least > it.length or it.most == 32 and draw.random() < 0.5:
        found["greater-equal"] = it.least
    if it.most < 32 or "greater-equal" not in found or draw.random() < 0.5:
        found["less-equal"] = it.most
    return found


def asn_text(draw, asn):
    return draw.choice([f"AS{asn}", f"AS{asn}", f"as{asn}", str(asn)])


def spelled(draw, name, text):
    """A file of a text, now and then with a byte order mark, with other ends of lines or blanks before it."""
    text = draw.choice(["", "", "", "\n", " \t\r\n"]) + text if text.startswith("{") else text
    octets = text.replace("\n", draw.choice(["\n", "\n", "\r\n"])).encode()
    return slow_reading.File(name, draw.choice([b"", b"", b"\xef\xbb\xbf"]) + octets)


def json_text(draw, whole):
    text = json.dumps(whole, indent=draw.choice([None, 1]))
    return text.replace("/", "\\/") if draw.random() < 0.5 else text


def lines_text(draw, lines):
    """Lines with remarks and blank ones between them; the last one may have no end."""
    found = []
    for line in lines:
        found += draw.choice([[], [], [], [""], ["# a remark"], ["  \t"]]) + [line + draw.choice(["", "", "", " ", "# a remark", "\t# 10.0.0.0/8"])]
    return "\n".join(found) + draw.choice(["\n", "\n", ""])


def halves(draw, rows):
    """An object with one list of rows or two, of any name."""
    place = draw.choice([0, len(rows), draw.randrange(len(rows) + 1)])
    return {"NN": rows[:place], "MM": rows[place:]} if 0 < place < len(rows) else {"NN": rows}


def prefix_list(draw, name, known):
    found = patterns(draw, known, draw.choice([0.6, 0.9, 1, 1]))
    if draw.random() < 0.5:
        ipv6 = ["2001:db8::/32{32,48}", "2001:db8::/32+"] * draw.choice([0, 0, 1])
        return spelled(draw, name, lines_text(draw, [pattern_text(draw, it) for it in found] + ipv6))
    rows = [entry(draw, it) for it in found] + [{"prefix": "2001:db8::/32", "exact": False, "less-equal": 48}] * draw.choice([0, 0, 1])
    return spelled(draw, name, json_text(draw, halves(draw, draw.sample(rows, len(rows)))))


def as_list(draw, name, asns):
    found = draw.sample(sorted(set(asns)), draw.choice([3, 5, 6]))
    if draw.random() < 0.5:
        return spelled(draw, name, json_text(draw, halves(draw, found)))
    lines = [draw.choice([str(it), f"AS{it}", f"{it}-{it + 1}"]) for it in found]
    return spelled(draw, name, lines_text(draw, lines))


def csv_text(draw, found):
    """Lines of VRPs and of IPv6 ones as rpki-client and Routinator write them, behind the line of titles."""
    rows = [(asn_text(draw, it.asn), prefix_text(it), str(it.most), "ripe", "1790000000") for it in found]
    rows += [("AS64510", "2001:db8::/32", "48", "ripe", "1790000000")] * draw.choice([0, 1, 3])
    width = draw.choice([3, 4, 5])
    lines = [draw.choice(["", "", "", "\n"]) + ",".join(draw.choice([it, it, f'"{it}"']) for it in row[:width]) for row in draw.sample(rows, len(rows))]
    return "\n".join([",".join(("ASN", "IP Prefix", "Max Length", "Trust Anchor", "Expires")[:width]), *lines]) + draw.choice(["\n", "\n", ""])


def roas(draw, found):
    """The object of VRPs and of IPv6 ones as rpki-client and Routinator write it."""
    more = draw.choice([{}, {"ta": "ripe", "expires": 1790000000}, {"source": [{"type": "roa", "uri": None}]}])
    rows = [{"asn": draw.choice([it.asn, asn_text(draw, it.asn)]), "prefix": prefix_text(it), "maxLength": it.most} | more for it in found]
    rows += [{"asn": "AS64510", "prefix": "2001:db8::/32", "maxLength": 48}] * draw.choice([0, 1, 3])
    whole = {"metadata": {"buildtime": "2026-11-30T00:00:00Z", "vrps": len(rows)}, "roas": draw.sample(rows, len(rows)), "bgpsec_keys": []}
    return whole if draw.random() < 0.7 else {"roas": whole["roas"]}


def vrp_file(draw, known):
    found = vrps(draw, known)
    if draw.random() < 0.5:
        return spelled(draw, "vrps.csv", csv_text(draw, found))
    return spelled(draw, "vrps.json", json_text(draw, roas(draw, found)))


# ---- the whole


def policy(draw, known):
    """The values of `[import]`: each key is there or not, and now and then none is."""
    least = draw.choice([0, 7, 8])
    makers = {
        "prefix_length": lambda: draw.choice([{"min": least, "max": draw.choice([24, 25, 28])}, {"max": 24}, {"min": 8}, {}, {"min": 16, "max": 16}]),
        "refuse_prefixes": lambda: draw.sample(BOGONS, draw.randrange(4)) + [pattern_text(draw, it) for it in patterns(draw, known, 0.1)],
        "max_as_path": lambda: draw.choice([0, 1, 2, 3, 4, 4, 5, 5, 6, 6, 32, 4294967295]),
        "refuse_as": lambda: draw.sample(REFUSED, draw.choice([0, 1, 1, 2])),
        "enforce_first_as": lambda: draw.random() < 0.7,
        "vrps": lambda: vrp_file(draw, known),
    }
    share = draw.choice([0.2, 0.5, 0.5, 0.8])
    return slow_reading.Import(**{key: make() for key, make in makers.items() if draw.random() < share})


def with_policy(draw, server, peers, known):
    """The server and the peers with an import policy and lists; several peers may name one list, and a list may have no entry."""
    prefix_lists = [prefix_list(draw, f"prefixes{place}", known) for place in range(3)]
    as_lists = [as_list(draw, f"numbers{place}", [server.asn, *ORIGINS, *(it.asn for it in peers)]) for place in range(3)]
    empty = slow_reading.File("empty", draw.choice([b"", b"", b"\n", b'{"NN":[]}', b"# nothing\n", b"\xef\xbb\xbf"]))
    share = draw.choice([0, 0.4, 0.8])

    def choice(lists):
        return draw.choice([*lists * 5, empty]) if draw.random() < share else None

    peers = [it._replace(prefix_list=choice(prefix_lists), as_list=choice(as_lists), import_=draw.random() < 0.85) for it in peers]
    return server._replace(import_policy=policy(draw, known) if draw.random() < 0.9 else None), peers
