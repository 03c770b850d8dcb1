"""Runs the built program on exchanges and judges what comes by the slow reading."""

import datetime
import json
import multiprocessing
import os
import re
import subprocess
import sys
import tempfile

import slow_reading


def text_of(address):
    return ".".join(str(it) for it in address.to_bytes(4, "big"))


def toml(value):
    """A value of a key: a number, a word, a list, an inline table, or the name of a file."""
    if isinstance(value, slow_reading.File):
        return json.dumps(value.name)
    if isinstance(value, dict):
        return "{ " + ", ".join(f"{key} = {toml(it)}" for key, it in value.items()) + " }"
    return json.dumps(value)


def keys_text(keys):
    """The lines of the keys (name, value) that have a value."""
    return [f"{key} = {toml(value)}" for key, value in keys if value is not None]


def configuration(server, peers, names):
    """The TOML text of an exchange whose peers' files have these names."""
    lines = ["[server]", f"as = {server.asn}", f'address = "{text_of(server.address)}"', f'id = "{text_of(server.id)}"']
    if server.subnet:
        lines.append(f'subnet = "{text_of(server.subnet[0])}/{server.subnet[1]}"')
    if server.large_communities:
        lines.append("large_communities = true")
    for peer, name in zip(peers, names):
        lines += ["[[peer]]", f'name = "{peer.name}"', f"as = {peer.asn}", f'address = "{text_of(peer.address)}"', f'id = "{text_of(peer.id)}"']
        lines += [f"preference = {peer.preference}", f"refuse_from = {list(peer.refuse_from)}".replace("'", '"'), f'file = "{name}"']
        lines += keys_text([("prefix_list", peer.prefix_list), ("as_list", peer.as_list), ("import", None if peer.import_ else False)])
    if server.import_policy:
        lines += ["[import]", *keys_text(server.import_policy._asdict().items())]
    return "\n".join(lines) + "\n"


class Bench:
    """A folder to run the program in."""

    def __init__(self, program):
        self.program = os.path.realpath(program)
        self.folder = tempfile.TemporaryDirectory()
        os.mkdir(f"{self.folder.name}/tables")

    def put(self, name, octets):
        with open(f"{self.folder.name}/{name}", "wb") as it:
            it.write(octets)

    def judge(self, server, peers, files, time=0, words=(), errors="rfc4271"):
        """None where the program gives what the slow reading gives, else what differs. `files` has a (name, octets) for each peer."""
        for name, octets in files + [file for file, _ in slow_reading.lists(server, peers)]:
            self.put(name, octets)
        self.put("exchange.toml", configuration(server, peers, [name for name, _ in files]).encode())
        line = [self.program, "--config", "exchange.toml", "--out", "tables", "--time", str(time), *words]
        ran = subprocess.run(line, cwd=self.folder.name, capture_output=True)
        report, dumps = slow_reading.outcome(server, peers, [octets for _, octets in files], time, errors)
        told, strict = ran.stderr.decode(errors="replace"), "--strict-after" in words
        reasons = [line for line in told.splitlines() if not re.search(NO_REASON, line)]
        clean = not strict or not reasons and all(line.endswith(" close end") for line in report.splitlines() if line.startswith("peer "))
        wrong = wrong_notes(server, peers, report, files, told, strict, errors)
        if ran.returncode != (0 if clean else 5) or wrong:
            return f"status {ran.returncode}: {told}"
        if ran.stdout.decode() != report:
            return f"the report is\n{ran.stdout.decode()}and not\n{report}"
        for name, octets in dumps.items():
            with open(f"{self.folder.name}/tables/{name}.mrt", "rb") as it:
                if it.read() != octets:
                    return f"the table of {name} is another"
        return None


# What a strict run may tell beside what is judged here.
DOUBTS = r"(\S+ is empty|their files are empty|a loss at .*|losses are recorded .*|.* not read.*|large communities .*)"
# The same of files: a changed octet of a Timestamp gives such notes.
FILE_DOUBTS = r"route_server: note: (\S+.*: times go back|\S+.*: no record for |subnet )"
# And what is no reason for its status.
NO_REASON = r"note: peers? [\w, ]+: (large communities 64500:\*:\* have no effect |its session is down since |its session has not begun;|their sessions are down;)"


def wrong_notes(server, peers, report, files, told, strict, errors):
    """The lines that may not be told, and those that must be: a run notes nothing but peers whose files gave only the close, files in which the session of a peer
    closed within a record that the end of the file cuts short, and, if it is strict, what `session_notes`, `down_note`, `server_note`, `filtered_note` and `list_notes` say."""
    silent = set(re.findall(r"^peer (\S+) changes 1 ", report, re.M))
    ends = re.findall(r"^peer .* close (.*)$", report, re.M)
    cut = {note: name for (name, octets), end in zip(files, ends) if end in ("mrt M1", "mrt M2") for note in cut_notes(name, octets, len(files), strict)}
    must = session_notes(peers, ends, files) + down_note(peers, ends, files) if strict else []
    must += server_note(server, files) + filtered_note(server, peers, files, errors) if strict else []
    lines = told.splitlines()
    wrong = [line for line in must if lines.count(line) != 1]
    for form in list_notes(server, peers) if strict else []:
        said = [line for line in lines if re.fullmatch(form, line)]
        wrong += [form] * (len(said) != 1)
        lines = [line for line in lines if line not in said]
    for line in lines:
        note = re.match(r"route_server: note: peers? ([\w, ]+): (.*)", line)
        whose = set(re.split(", | and ", note[1])) if note else set()
        if line in must or strict and note and re.fullmatch(DOUBTS, note[2]) or strict and re.match(FILE_DOUBTS, line):
            continue
        if note and whose <= silent:
            silent -= whose
        elif line in cut:
            cut = {}
        else:
            wrong.append(line)
    return wrong


def cut_notes(name, octets, count, strict):
    """The lines that may tell that a file ends within a record, of one file or of several of `count`."""
    whole = sum(12 + len(record.body) for record in slow_reading.records(octets)[0])
    lost = f"octets lost: {len(octets) - whole}"
    advised = f"{lost}; head -c {whole} cuts it there" if strict and whole else lost
    lines = [f"{name} ends within its last record, which begins at octet {whole} ({advised})"]
    lines += [f"{name} and {more} more end within their last records; that of {name} begins at octet {whole} ({lost})" for more in range(1, count)]
    return [f"route_server: note: {line}" for line in lines]


def session_notes(peers, ends, files):
    """The notes on sessions that went on to the end of their files."""
    begun, again = [], []
    for peer, end, (_, octets) in zip(peers, ends, files):
        inside, time = slow_reading.notes(octets, peer) if end == "end" else (False, None)
        if inside:
            begun.append(peer.name)
        if time is not None:
            shown = datetime.datetime.fromtimestamp(time, datetime.timezone.utc).strftime("%Y-%m-%d %H:%M:%S")
            again.append((peer.name, f"at {shown} UTC"))
    lines = []
    if len(begun) == 1:
        lines.append(f"peer {begun[0]}: the recording begins in mid-session; routes announced before are missing")
    elif begun:
        lines.append(f"peers {names_text(begun)}: their recordings begin in mid-session; routes announced before are missing")
    if len(again) == 1:
        lines.append(f"peer {again[0][0]}: a session began again {again[0][1]} without a recorded loss; its earlier routes stay")
    elif again:
        names = names_text([name for name, _ in again])
        text = "a session of each began again without a recorded loss; their earlier routes stay"
        lines.append(f"peers {names}: {text}; of {again[0][0]}: {again[0][1]}")
    return [f"route_server: note: {line}" for line in lines]


def down_note(peers, ends, files):
    """The note on peers whose sessions went on to the end of their files, and are down there."""
    found = []
    for peer, end, (_, octets) in zip(peers, ends, files):
        is_down, time = slow_reading.down(octets, peer) if end == "end" else (False, None)
        if is_down:
            shown = "" if time is None else datetime.datetime.fromtimestamp(time, datetime.timezone.utc).strftime("down since %Y-%m-%d %H:%M:%S UTC")
            found.append((peer.name, shown))
    if not found:
        return []
    (name, shown), names = found[0], names_text([name for name, _ in found])
    if len(found) > 1:
        text = "their sessions are down; their tables are as if they were up"
        return [f"route_server: note: peers {names}: {text}; of {name}: {shown or 'it has not begun'}"]
    text = f"its session is {shown}" if shown else "its session has not begun"
    return [f"route_server: note: peer {name}: {text}; its table is as if it were up"]


def names_text(names):
    """Names as a note lists them: at most eight."""
    if len(names) > 8:
        return ", ".join(names[:8]) + f" and {len(names) - 8} more"
    return " and ".join(filter(None, [", ".join(names[:-1]), names[-1]]))


def filtered_note(server, peers, files, errors):
    """The note on peers that left routes, each of which is filtered."""
    names = [peer.name for peer in slow_reading.filtered_peers(server, peers, [octets for _, octets in files], errors)]
    if len(names) == 1:
        return [f"route_server: note: peer {names[0]}: all of its routes are filtered (a wrong list?)"]
    return [f"route_server: note: peers {names_text(names)}: all of their routes are filtered (wrong lists?)"] if names else []


def list_notes(server, peers):
    """The form of the note on lists and VRP files without an entry. It names the first file."""
    empty = [file.name for file in slow_reading.empty_lists(server, peers)]
    return [rf"route_server: note: {re.escape(empty[0])} .*no entr.*"] if empty else []


def server_note(server, files):
    """The note where messages are recorded, and none of a session with the server."""
    found = [(name, whose) for name, octets in files for whose in slow_reading.recorders(octets)]
    if not found or (server.asn, server.address) in [whose for _, whose in found]:
        return []
    name, (asn, address) = found[0]
    shown = f"{text_of(server.address)} AS {server.asn}; {name} is of {text_of(address)} AS {asn}"
    return [f"route_server: note: no record is of the server {shown}"]


def judge_all(judge, tasks):
    """Judges tasks side by side, `judge(task)` giving None or what differs; prints the count and ends the process."""
    passed = failed = 0
    with multiprocessing.Pool() as pool:
        for task, why in zip(tasks, pool.imap(judge, tasks, chunksize=16)):
            passed, failed = (passed + 1, failed) if why is None else (passed, failed + 1)
            if why is not None and failed <= 10:
                print(f"{task}: {why}")
    print(f"{passed} passed, {failed} failed")
    sys.exit(1 if failed or not passed else 0)
