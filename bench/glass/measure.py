"""Runs the commands of `compare` in turn, and prints their times and memory with the ratios.

usage: measure.py READ_FILES LOOKING_GLASS ROUTE_SERVER FOLDER PEERS ROUTES
"""
import os
import shutil
import subprocess
import sys
import time

ROUNDS = 7
GOAL = 1.5
MEMORY_GOAL = 1.2
LISTS = ("missing", "summary")
# The goal of `summary` in seconds, and of how many peers of how many routes.
SUMMARY_GOAL = 1
SUMMARY_SIZE = ("200", "2000")


def run(command, folder):
    """CPU seconds, wall seconds and peak kilobytes of one run. `time` starts it: a child of this process
    would begin with the memory of Python."""
    peak = os.path.join(folder, "peak")
    start = time.perf_counter()
    process = subprocess.Popen(["time", "-f", "%M", "-o", peak, *command], cwd=folder, stdout=subprocess.DEVNULL)
    _, status, usage = os.wait4(process.pid, 0)
    wall = time.perf_counter() - start
    if status != 0:
        sys.exit(f"failed: {command}")
    with open(peak) as file:
        return usage.ru_utime + usage.ru_stime, wall, int(file.read())


def ratios(name, least, size):
    """The ratios of a command over an exchange of this size, with its goal."""
    cpu, wall, memory = least[name]
    if name in ("why", "history"):
        records, sessions = (wall / least[other][1] for other in ("records alone", "sessions alone"))
        goal = f" (goal: at most {GOAL} of records alone)" if name == "why" else ""
        return f"; wall of records alone {records:.1f}, of sessions alone {sessions:.2f}{goal}"
    if name in LISTS:
        server_cpu, server_wall, server_memory = least["route_server"]
        seconds = f"; goal of the wall time itself: under {SUMMARY_GOAL} s" if name == "summary" and size == SUMMARY_SIZE else ""
        return (
            f"; wall of route_server {wall / server_wall:.2f} (goal: at most {GOAL}), CPU of it {cpu / server_cpu:.2f},"
            f" memory of it {memory / server_memory:.2f} (goal: at most {MEMORY_GOAL}){seconds}"
        )
    return ""


def main():
    read_files, glass, server, folder, peers, routes = sys.argv[1:]
    asked = ["--config", "config.toml", "--prefix", "20.0.5.0/24", "--client", "p1"]
    whole = ["--config", "config.toml", "--shards", "4"]
    files = [f"p{number}.mrt" for number in range(int(peers))]
    dumps = os.path.join(folder, "dumps")
    commands = {
        "records alone": [read_files, "records", *files],
        "sessions alone": [read_files, "sessions", *files],
        "why": [glass, "why", *asked],
        "history": [glass, "history", *asked],
        "route_server": [server, *whole, "--out", "dumps"],
        "missing": [glass, "missing", *whole, "--client", "p1"],
        "summary": [glass, "summary", *whole],
    }
    taken = {name: [] for name in commands}
    for _ in range(ROUNDS):
        for name, command in commands.items():
            shutil.rmtree(dumps, ignore_errors=True)
            os.mkdir(dumps)
            taken[name].append(run(command, folder))
    least = {name: [min(column) for column in zip(*runs)] for name, runs in taken.items()}
    octets = sum(os.path.getsize(os.path.join(folder, file)) for file in files)
    print(f"{peers} peers of {routes} routes, {octets} octets:")
    for name, (cpu, wall, memory) in least.items():
        print(f"  {name:<15} CPU {cpu:.3f} s, wall {wall:.3f} s, at most {memory / 1024:.1f} MB{ratios(name, least, (peers, routes))}")


main()
