"""What three independent readers list of a dump, and what each of them must list of a row.

Each reader has two functions: `read` gives its list, one dictionary for each row, and `meant` gives the dictionary of a row. What a reader cannot show has no
field in its dictionaries.
"""
import json
import subprocess
import time

from routes import PEERS, SET, written_attributes

ORIGINS = ("IGP", "EGP", "INCOMPLETE")
LARGE_COMMUNITIES = 32
EXTENDED_COMMUNITIES = 16


def output(*command):
    """The standard output of a command; a failure, a crash too, is an error."""
    return subprocess.run(command, check=True, capture_output=True, text=True).stdout


def path_text(path, opening, between, closing):
    """An AS_PATH in one line, sets in brackets."""
    words = []
    for kind, members in path:
        words.append(opening + between.join(map(str, members)) + closing if kind == SET else " ".join(map(str, members)))
    return " ".join(words)


def communities(row, no_export):
    """The communities in words: the one that has a name, the others as two numbers."""
    return [no_export if value == 0xFFFFFF01 else f"{value >> 16}:{value & 0xFFFF}" for value in row.communities]


def large_communities(value):
    """The value of LARGE_COMMUNITY (RFC 8092) in words."""
    parts = [int.from_bytes(value[at:at + 4], "big") for at in range(0, len(value), 4)]
    return [":".join(map(str, parts[at:at + 3])) for at in range(0, len(parts), 3)]


class BgpdumpLines:
    """`bgpdump -m`. It cannot show: a MED that is missing (it writes 0), the Originated Time, attributes that it does not know."""
    name, package = "bgpdump -m", "bgpdump"

    def read(self, dump):
        rows = []
        for line in output("bgpdump", "-q", "-m", dump).splitlines():
            kind, _, action, peer, peer_as, prefix, path, origin, next_hop, _, med, values, atomic, aggregator, _ = line.split("|")
            rows.append({"kind": kind + action, "prefix": prefix, "peer": peer, "peer AS": peer_as, "path": path, "origin": origin, "next hop": next_hop,
                         "MED or 0": med, "communities": values.split(), "atomic": atomic == "AG", "aggregator": aggregator})
        return rows

    def meant(self, _, row):
        _, peer_as, peer = PEERS[row.peer]
        return {"kind": "TABLE_DUMP2B", "prefix": row.prefix, "peer": peer, "peer AS": str(peer_as), "path": path_text(row.path, "{", ",", "}"),
                "origin": ORIGINS[row.origin], "next hop": row.next_hop, "MED or 0": str(row.med or 0), "communities": communities(row, "no-export"),
                "atomic": row.atomic, "aggregator": "{} {}".format(*row.aggregator) if row.aggregator else ""}


class BgpdumpRecords:
    """`bgpdump`, record by record. It cannot show: the century of the Originated Time, the Partial bit of what it knows."""
    name, package = "bgpdump", "bgpdump"

    def read(self, dump):
        records = output("bgpdump", "-q", dump).strip().split("\n\n")
        return [sorted(line.strip() for line in record.splitlines() if not line.startswith("TIME")) for record in records]

    def meant(self, sequence, row):
        _, peer_as, peer = PEERS[row.peer]
        lines = ["TYPE: TABLE_DUMP_V2/IPV4_UNICAST", f"PREFIX: {row.prefix}", f"SEQUENCE: {sequence}", f"FROM: {peer} AS{peer_as}",
                 time.strftime("ORIGINATED: %m/%d/%y %H:%M:%S", time.gmtime(row.time)), f"ORIGIN: {ORIGINS[row.origin]}",
                 f"ASPATH: {path_text(row.path, '{', ',', '}')}".strip(), f"NEXT_HOP: {row.next_hop}"]
        if row.med is not None:
            lines.append(f"MULTI_EXIT_DISC: {row.med}")
        if row.atomic:
            lines.append("ATOMIC_AGGREGATE")
        if row.aggregator:
            lines.append("AGGREGATOR: AS{} {}".format(*row.aggregator))
        if row.communities:
            lines.append("COMMUNITY: " + " ".join(communities(row, "no-export")))
        for kind, value in row.others:
            flags = 0xF0 if len(value) > 255 else 0xE0
            unknown = f"UNKNOWN_ATTR({flags}, {kind}, {len(value)}): {value.hex(' ')}".strip()
            lines.append("LARGE_COMMUNITY: " + " ".join(large_communities(value)) if kind == LARGE_COMMUNITIES else unknown)
        return sorted(lines)


class Mrtparse:
    """`mrtparse`. It shows all fields, flags too."""
    name, package = "mrtparse", "python3-mrtparse"

    def read(self, dump):
        from mrtparse import Reader
        peers, rows = [], []
        for reader in Reader(dump):
            record = reader.mrt
            assert record.err is None, record.err_msg
            if record.peer:
                peers = [(entry.ip, entry.bgp_id, entry.asn) for entry in record.peer.entry]
                continue
            entry, = record.rib.entry
            attributes = [(attribute.type, attribute.flag, bytes(attribute.buf[attribute.p - attribute.len:attribute.p])) for attribute in entry.attr]
            rows.append({"timestamp": record.ts, "sequence": record.rib.seq, "prefix": f"{record.rib.prefix}/{record.rib.plen}", "peer": peers[entry.peer_index],
                         "originated": entry.org_time, "attributes": attributes, "fields": [self.field(attribute) for attribute in entry.attr]})
        return rows

    def field(self, attribute):
        """What it reads of an attribute that it knows."""
        path = attribute.as_path and [(segment["type"], tuple(map(int, segment["val"]))) for segment in attribute.as_path]
        read = (attribute.origin, path, attribute.next_hop, attribute.med, attribute.aggr, attribute.comm)
        return next((value for value in read if value is not None), None)

    def meant(self, sequence, row):
        _, peer_as, peer = PEERS[row.peer]
        others = [(kind, None) for kind, _ in row.others]
        aggregator = row.aggregator and {"asn": str(row.aggregator[0]), "id": row.aggregator[1]}
        fields = [(1, row.origin), (2, list(row.path)), (3, row.next_hop), (4, row.med), (7, aggregator), (8, communities(row, "65535:65281") or None)]
        present = [(kind, value) for kind, value in fields if value is not None] + ([(6, None)] if row.atomic else []) + others
        return {"timestamp": 0, "sequence": sequence, "prefix": row.prefix, "peer": (peer, peer, str(peer_as)), "originated": row.time, "attributes": written_attributes(row),
                "fields": [value for _, value in sorted(present, key=lambda field: field[0])]}


class Bgpctl:
    """`bgpctl show mrt detail`. It cannot show: 0.0.0.0/0, which it leaves out; a MED that is missing (it writes 0); the AS number of the sending peer beside a
    row (it lists the peers by themselves); an Originated Time that is yet to come (it writes the age)."""
    name, package = "bgpctl show mrt", "openbgpd"

    def read(self, dump):
        peers = {line.split()[0]: line.split()[1] for line in output("bgpctl", "show", "mrt", "peers", "file", dump).splitlines()[3:]}
        now, text = self.details(dump)
        rows = []
        for route in json.loads(text + closing(text))["rib"]:
            known, others = {}, []
            for attribute in route.get("attributes", []):
                kind, partial = attribute["type"], attribute["flags"]["partial"]
                if kind.startswith("Unknown"):
                    others.append((int(kind.split("#")[1]), partial, attribute.get("data", "")))
                else:
                    known[kind] = {key: value for key, value in attribute.items() if key not in ("type", "length", "flags")} | {"partial": partial}
            rows.append({"prefix": route["prefix"], "peer": route["neighbor"]["remote_addr"], "peer AS": peers[route["neighbor"]["remote_addr"]],
                         "path": route["aspath"], "origin": route["origin"].upper(), "next hop": route["exit_nexthop"], "MED or 0": route["metric"],
                         "originated": now - route["last_update_sec"] if route["last_update_sec"] else None, "known": known, "others": others})
        return rows

    def details(self, dump):
        """The time, and the rows as the reader lists them within that second."""
        while True:
            now = int(time.time())
            text = output("bgpctl", "-j", "show", "mrt", "detail", "file", dump)
            if int(time.time()) == now:
                return now, text

    def meant(self, _, row):
        if row.prefix == "0.0.0.0/0":
            return None
        _, peer_as, peer = PEERS[row.peer]
        known, others = {}, []
        if row.atomic:
            known["Atomic Aggregate"] = {"partial": False}
        if row.aggregator:
            known["Aggregator"] = {"AS": row.aggregator[0], "router_id": row.aggregator[1], "partial": 7 in row.partial}
        if row.communities:
            known["Communities"] = {"communities": communities(row, "NO_EXPORT"), "partial": 8 in row.partial}
        for kind, value in row.others:
            if kind == LARGE_COMMUNITIES:
                known["Large Communities"] = {"large_communities": large_communities(value), "partial": True}
            elif kind == EXTENDED_COMMUNITIES:
                known["Ext. Communities"] = {"extended_communities": ["rt 65000:7"], "partial": True}
            else:
                others.append((kind, True, value.hex()))
        return {"prefix": row.prefix, "peer": peer, "peer AS": str(peer_as), "path": path_text(row.path, "{ ", " ", " }"), "origin": ORIGINS[row.origin],
                "next hop": row.next_hop, "MED or 0": row.med or 0, "originated": row.time if row.time < time.time() else None, "known": known, "others": others}


def closing(text):
    """The brackets that are still open at the end of a JSON text: bgpctl does not close them."""
    open_brackets, quoted, at = [], False, 0
    while at < len(text):
        if text[at] == "\\":
            at += 1
        elif text[at] == '"':
            quoted = not quoted
        elif not quoted and text[at] in "{[":
            open_brackets.append("}" if text[at] == "{" else "]")
        elif not quoted and text[at] in "}]":
            open_brackets.pop()
        at += 1
    return "".join(reversed(open_brackets))


READERS = (BgpdumpLines(), BgpdumpRecords(), Mrtparse(), Bgpctl())
