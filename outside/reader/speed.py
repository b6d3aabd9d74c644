"""How many commands a second the card answers, and where the time goes: speed.py PROGRAM FOLDER_IN_MEMORY FOLDER_ON_A_DISK. Times in microseconds a command.

Each row is one command, many times over, at the stand-in for vpcd with the card's folder in memory and on the disk, and over PC/SC with pcscd and
vpcd. The process's own time is that of /proc: "user" is engine, curve and hashes, "system" the files and the socket. What is left of the whole
is waiting: for the client's end, which is in Python, and on a disk for the two syncs."""
import os
import shutil
import sys
import time

sys.path.insert(0, os.path.dirname(os.path.abspath(__file__)))

import client as keycard
import sitting
import stock
from client import Client
from cuts import initialised
from sitting import PIN, SECRET
from wire import Program

SECONDS = 2.0  # for each figure
TICK = 1_000_000 / os.sysconf("SC_CLK_TCK")


def spent(process):
    """User and system time of a process, in microseconds."""
    with open(f"/proc/{process.pid}/stat", encoding="ascii") as stat:
        user, system = stat.read().rpartition(")")[2].split()[11:13]
    return int(user) * TICK, int(system) * TICK


def rows(client):
    """The commands that are measured."""
    return {
        "SELECT": lambda: client.plain(0x00, keycard.SELECT, 0x04, 0x00, keycard.APPLICATION),
        "OPEN and MUTUAL": client.open,
        "GET STATUS": client.tries,
        "VERIFY": lambda: client.verify(PIN),
        "DERIVE, 5 components": lambda: client.derive("m/44'/60'/0'/0/0"),
        "SIGN, 5 components": lambda: client.sign(bytes(32)),
    }


def measure(client, process, where):
    client.connected(PIN)
    for name, act in rows(client).items():
        if name == "GET STATUS":
            client.connected(PIN)
        count, (user, system), start = 0, spent(process), time.monotonic()
        while time.monotonic() - start < SECONDS:
            act()
            count += 1
        whole = 1_000_000 * (time.monotonic() - start) / count
        now = spent(process)
        print(f"| {where} | {name} | {1_000_000 / whole:.0f} | {whole:.0f} | {(now[0] - user) / count:.0f} | {(now[1] - system) / count:.0f} |", flush=True)


def main(program, memory, disk):
    bench = sitting.Bench(program, None, memory)
    try:
        folder, pairing = initialised(bench)
        print("| where | command | a second | whole | user | system |\n|---|---|---|---|---|---|")
        slow = os.path.join(disk, "card")
        shutil.copytree(folder, slow)
        os.chmod(slow, 0o700)
        for where, place in (("socket, folder in memory", folder), ("socket, folder on a disk", slow)):
            with bench.sit(place) as sat:
                sat.begin(pairing, PIN)
                measure(sat.client, sat.program.process, where)
        daemon = stock.Daemon(memory)
        card = Program(program, folder, daemon.port, os.path.join(memory, "said"))
        try:
            wire = stock.card_is_there()
            client = Client(wire.transmit, SECRET)
            client.pairing = pairing
            measure(client, card.process, "PC/SC, folder in memory")
            wire.close()
        finally:
            card.stop()
            daemon.stop()
    finally:
        bench.stand_in.close()


if __name__ == "__main__":
    main(*sys.argv[1:])
