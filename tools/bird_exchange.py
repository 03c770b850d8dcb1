"""An exchange whose route server is a BIRD, to compare the programs with: the sessions of seven clients, which a script plays, BIRD's configuration, what it
exports to each client, and the tables that the programs give for its recording. It needs Debian's packages `bird2` and `iproute2`, and a kernel that lets
`unshare --map-root-user --net` make a network of its own."""

import collections
import json
import os
import re
import select
import socket
import struct
import subprocess
import sys
import threading
import time

import read_tables
import slow_reading

SERVER, PORT, SERVER_AS, SERVER_ID = "127.0.0.1", 17900, 64500, "192.0.2.1"
CLIENTS = {name: (f"127.0.0.{11 + place}", asn) for place, (name, asn) in enumerate(zip("abcdefg", (64501, 64502, 64503, 64504, 64505, 64505, 4200000007)))}


def run(*words):
    return subprocess.run(list(map(str, words)), check=True, capture_output=True, text=True).stdout


def wait_until(holds, what):
    end = time.time() + 20
    while not holds():
        if time.time() > end:
            raise SystemExit(f"this did not come: {what}")
        time.sleep(0.02)


def octets_of(address):
    return bytes(map(int, address.split(".")))


def enter_own_network():
    """Starts the script again in a network of its own, and brings up its loopback addresses."""
    if "OWN_NETWORK" not in os.environ:
        os.execvpe("unshare", ["unshare", "--map-root-user", "--net", sys.executable, *sys.argv], os.environ | {"OWN_NETWORK": "yes"})
    run("ip", "link", "set", "lo", "up")


# ---- the clients


def message(kind, body=b""):
    return b"\xff" * 16 + struct.pack(">HB", 19 + len(body), kind) + body


def spelled(prefixes):
    return b"".join(bytes([length]) + struct.pack(">I", address)[: (length + 7) // 8] for address, length in sorted(prefixes))


class Client:
    """A BGP speaker of one session at a time. A thread keeps the session up, and reads what BIRD sends."""

    def __init__(self, name):
        self.name, (self.address, self.asn) = name, CLIENTS[name]
        self.link, self.silent, self.routes = None, False, set()

    def opening(self, hold):
        capabilities = b"\x01\x04\x00\x01\x00\x01" + b"\x41\x04" + struct.pack(">I", self.asn)
        parameters = bytes([2, len(capabilities)]) + capabilities
        mine = struct.pack(">BHH", 4, self.asn if self.asn < 65536 else 23456, hold)
        return message(1, mine + octets_of(self.address) + bytes([len(parameters)]) + parameters)

    def connect(self, hold):
        """A new session. BIRD may refuse a connection for a while behind a loss."""
        end = time.time() + 20
        while not self.try_to_connect(hold):
            if time.time() > end:
                raise SystemExit(f"BIRD takes no connection of {self.name}")
            time.sleep(0.05)
        self.silent, self.routes = False, set()
        threading.Thread(target=self.keep_alive, args=(self.link, hold / 4), daemon=True).start()

    def try_to_connect(self, hold):
        link = socket.socket()
        try:
            link.bind((self.address, 0))
            link.settimeout(10)
            link.connect((SERVER, PORT))
            link.sendall(self.opening(hold))
            if self.received(link) == 1:
                link.sendall(message(4))
                if self.received(link) == 4:
                    self.link = link
                    return True
        except OSError:
            pass
        link.close()
        return False

    @staticmethod
    def received(link):
        """The type of the next message, or None at the end of the connection."""
        header = link.recv(19, socket.MSG_WAITALL)
        if len(header) < 19:
            return None
        link.recv(struct.unpack(">H", header[16:18])[0] - 19, socket.MSG_WAITALL)
        return header[18]

    def keep_alive(self, link, every):
        due = time.monotonic()
        while self.link is link:
            try:
                if select.select([link], [], [], 0.2)[0] and not link.recv(65536):
                    return
                if not self.silent and time.monotonic() > due:
                    link.sendall(message(4))
                    due = time.monotonic() + every
            except (OSError, ValueError):
                return

    def update(self, withdrawn, section, announced):
        withdrawn_octets, announced_octets = spelled(withdrawn), spelled(announced)
        lengths = [struct.pack(">H", len(octets)) for octets in (withdrawn_octets, section)]
        self.link.sendall(message(2, lengths[0] + withdrawn_octets + lengths[1] + section + announced_octets))
        self.routes = self.routes - withdrawn | announced

    def path(self, draw):
        """The value of AS_PATH."""
        path = [self.asn, *(draw.randrange(1, 60_000) for _ in range(draw.randrange(0, 3)))]
        return struct.pack(f">BB{len(path)}I", 2, len(path), *path)

    def attributes(self, draw):
        path = self.path(draw)
        octets = bytes([0x40, 1, 1, draw.randrange(3), 0x40, 2, len(path)]) + path + bytes([0x40, 3, 4]) + octets_of(self.address)
        return octets + self.optional_attributes(draw)

    def optional_attributes(self, draw):
        """MED on some routes."""
        return bytes([0x80, 4, 4]) + struct.pack(">I", draw.randrange(3)) if draw.random() < 0.3 else b""

    def announce(self, draw, prefixes):
        """A route of each of some prefixes, with attributes of its own."""
        for prefix in prefixes:
            self.update(set(), self.attributes(draw), {prefix})

    def leave(self, link, *, reset=False):
        self.link = None
        if reset:
            link.setsockopt(socket.SOL_SOCKET, socket.SO_LINGER, struct.pack("ii", 1, 0))
        else:
            try:
                link.shutdown(socket.SHUT_RDWR)
            except OSError:
                pass
        link.close()


# ---- the route server


def configuration(file, imports, exports, more="", deterministic="on"):
    """BIRD's configuration. `imports` and `exports` have the statements of the filters that take in a client's routes and export routes to it, by its name."""
    text = f'router id {SERVER_ID};\nmrtdump "{file}";\nmrtdump protocols {{ states, messages }};\nprotocol device {{}}\n'
    text += f"ipv4 table received;\nipv4 table nowhere;\n{more}"
    for name, (address, asn) in CLIENTS.items():
        # The client's own routes stand in its table too, and lose against all others there. BIRD doesn't send them back. Next hops are looked up in a table of
        # their own, which stays empty: a default route in the client's table would tell a metric of them.
        text += f"""ipv4 table for_{name};
protocol bgp {name} {{
    local {SERVER} port {PORT} as {SERVER_AS}; neighbor {address} as {asn}; multihop; passive; strict bind; rs client;
    deterministic med {deterministic}; interpret communities off; enforce first as off; default bgp_med 0; error wait time 1, 1; error forget time 1;
    ipv4 {{ table for_{name}; igp table nowhere; import filter {{ {imports.get(name, "")} preference = 1; accept; }}; export all; }};
}}
protocol pipe of_{name} {{
    table received; peer table for_{name};
    import filter {{ if proto = "{name}" then {{ preference = 100; accept; }} reject; }};
    export filter {{ if proto = "{name}" then reject; {exports.get(name, "")} accept; }};
}}
"""
    return text


# med: -1 if it is missing; communities and large: texts, in ascending order
Route = collections.namedtuple("Route", "prefix peer origin path next_hop med communities large")


class Bird:
    """A BIRD that runs until the end of a `with`."""

    def __init__(self, work, *filters, **others):
        self.recorded, self.control = work / "recorded.mrt", work / "bird.ctl"
        (work / "bird.conf").write_text(configuration(self.recorded, *filters, **others))
        self.process = subprocess.Popen(["bird", "-f", "-c", work / "bird.conf", "-s", self.control, "-P", work / "bird.pid"], stderr=subprocess.DEVNULL)
        wait_until(self.control.exists, "BIRD's start")

    def __enter__(self):
        return self

    def __exit__(self, *_):
        self.process.terminate()
        self.process.wait()

    def ask(self, *words):
        return run("birdc", "-s", self.control, *words)

    def up(self):
        """The clients whose sessions are Established."""
        return {line.split()[0] for line in self.ask("show", "protocols").splitlines() if "Established" in line}

    def exported(self, name):
        """The routes that BIRD exports to a client."""
        found = []
        for line in self.ask("show", "route", "export", name, "all").splitlines():
            first = re.match(r"([\d./]+)\s+\S+ \[(\S+) ", line)
            if first:
                found.append(dict(prefix=first[1], peer=first[2]))
            elif match := re.match(r"\tBGP\.(\w+): ?(.*)", line):
                found[-1][match[1]] = match[2].strip()
            elif line and not line.startswith(("BIRD", "Table", "\t")):
                raise SystemExit(f"not understood: {line}")
        return sorted(map(route_of, found))


def route_of(shown):
    """A route, of the attributes that birdc shows."""
    lists = [re.findall(r"\d+(?:, ?\d+)+", shown.get(key, "")) for key in ("community", "large_community")]
    lists = [tuple(sorted(re.sub(", ?", ":", it) for it in found)) for found in lists]
    path = re.sub(r"\{.*?\}", lambda found: found[0].replace(" ", ","), shown.get("as_path", ""))
    return Route(shown["prefix"], shown["peer"], shown["origin"].upper(), path, shown["next_hop"], int(shown.get("med", -1)), *lists)


# ---- what happens


def take_moment(bird, moments):
    """Asks BIRD what it exports to each client, in a second in which nothing else happens."""
    time.sleep(0.3)
    time.sleep(1.05 - time.time() % 1)
    moment, up = int(time.time()), bird.up()
    tables = {name: bird.exported(name) for name in sorted(up)}
    if int(time.time()) == moment:
        moments.append((moment, up, tables))
    time.sleep(1.02 - time.time() % 1)


def play_changes(bird, clients, change):
    """Plays sessions that stay up, in three rounds in which `change(client, round)` changes a client's routes. Answers the moments behind the rounds."""
    moments = []
    for client in clients:
        client.connect(90)
    for part in range(3):
        for client in clients:
            change(client, part)
        time.sleep(1)
        take_moment(bird, moments)
    return moments


def busy_seconds(recorded):
    """The seconds in which BIRD recorded more than KEEPALIVEs. What it was asked then may be older than some of that."""
    entries = ((record.time, slow_reading.entry(record)) for record in slow_reading.records(recorded)[0])
    return {moment for moment, what in entries if what[0] == "state" or what[0] == "message" and what[3][18] != 4}


# ---- the tables of the programs


def routes_in(shown):
    """The routes of a table of the looking glass (`table --json`, or a dump as it would be shown so)."""
    med = lambda it: -1 if it["med"] is None else it["med"]
    lists = lambda it: [tuple(sorted(it[key])) for key in ("communities", "large_communities")]
    return sorted(Route(it["prefix"], it["peer"], it["origin"], it["path"], it["next_hop"], med(it), *lists(it)) for it in shown)


def tables_in(dumps):
    """The tables of all clients in their dumps (octets by name)."""
    names = {address: name for name, (address, _) in CLIENTS.items()}
    return {name: routes_in(read_tables.shown(row, names) for row in read_tables.rows(octets)) for name, octets in dumps.items()}


def dumped(server, work, moment, losses):
    """The tables that the route server dumps."""
    folder = work / f"{moment}.{losses}"
    folder.mkdir()
    run(server, "--config", work / "exchange.toml", "--out", folder, "--until", moment, "--losses", losses)
    return tables_in({name: (folder / f"{name}.mrt").read_bytes() for name in CLIENTS})


def listed(glass, work, moment, name, losses):
    """The table of a client in the looking glass."""
    found = run(glass, "table", "--config", work / "exchange.toml", "--client", name, "--until", moment, "--losses", losses, "--json")
    return routes_in(json.loads(line) for line in found.splitlines())


def difference(program, name, moment, wanted, routes):
    """What differs between BIRD's table of a client and that of a program."""
    only = [sorted(set(some) - set(other)) for some, other in ((wanted, routes), (routes, wanted))]
    return f"{program}: table of {name} until {moment}: BIRD alone has {only[0]}, {program} alone {only[1]}"
