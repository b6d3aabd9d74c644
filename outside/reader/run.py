"""All that is tried of the reader, in one run: run.py TOOLS_READER PROGRAM CALLS FOLDER. tools/reader-test builds and calls it."""
import os
import signal
import sys
import time

sys.path.insert(0, os.path.dirname(os.path.abspath(__file__)))

import abuse
import checks
import cuts
import folders
import power
import sitting
import stock

# Kills: 9 steps of a command, 50 wrong PINs and 18 wrong PUKs at each; 12 changes, 3 times; 8 steps of a first start, 8 times. 1,000 in all.
PINS, PUKS, ROUNDS, BIRTHS = 9 * 50, 9 * 18, 3, 8
SAID = "said"  # what programs have said goes to files of these names
COMMANDS, COMMANDS_OVER_PCSC = 100_000, 4_000


def told(what, start):
    print(f"{what} ({time.monotonic() - start:.1f} s)", flush=True)


def at_the_socket(bench):
    start = time.monotonic()
    told(f"folder: one process, modes, {folders.play(bench)} damaged cards refused and kept", start)
    start = time.monotonic()
    told(f"power cuts by the rules of a disk: {power.every_cut(bench)} folders that a cut could leave, each the card before or after", start)
    start = time.monotonic()
    for what, kind, kills in (("PINs", cuts.PinGuess, PINS), ("PUKs", cuts.PukGuess, PUKS)):
        seen, lost = cuts.guesses(bench, kind, kills)
        told(f"kills: {kills} in wrong {what}, of which {seen} were answered and {lost} cost a try", start)
    changed, born = cuts.changed(bench, ROUNDS), cuts.born(bench, BIRTHS)
    told(f"kills: {changed} in other changes, {born} in first starts; {PINS + PUKS + changed + born} in all", start)
    start = time.monotonic()
    words, speed, grown = abuse.over_the_socket(bench, COMMANDS)
    told(f"bad input: {COMMANDS} commands, {speed:.0f} a second, {len(words)} status words, the process grew by {grown} bytes in the second half", start)


def over_pcsc(tools_reader, program, work):
    start = time.monotonic()
    folder, client, seed = stock.command(tools_reader, work)
    told("tools/reader: stock tools, and a whole life over PC/SC", start)
    start = time.monotonic()
    daemon = stock.Daemon(work)
    try:
        stock.unplugged(program, work, daemon.port, folder, client, seed)
        stock.many_commands(program, work, daemon.port, folder, client, COMMANDS_OVER_PCSC)
        told(f"PC/SC: unplugged in the middle, {COMMANDS_OVER_PCSC} bad commands, a client that goes", start)
        start = time.monotonic()
        stock.usage(program, work, daemon.port)
        told("PC/SC: the flows of the usage paper", start)
    finally:
        daemon.stop()


def main(tools_reader, program, calls, work):
    signal.signal(signal.SIGTERM, lambda *_: sys.exit("reader-test: ended before its time"))  # and all that was started is stopped
    bench = sitting.Bench(program, calls, work)
    try:
        over_pcsc(tools_reader, program, work)
        at_the_socket(bench)
    except Exception as why:
        for name in sorted(name for name in os.listdir(work) if name.startswith(SAID)):
            with open(os.path.join(work, name), encoding="utf-8", errors="replace") as said:
                print(f"-- {name}", *said.read().splitlines()[-10:], sep="\n   ", file=sys.stderr)
        if not isinstance(why, checks.Failed):
            raise
        sys.exit(f"reader-test: {why}")
    finally:
        bench.stand_in.close()
    print(f"reader: {checks.counted} checks, 0 failed")


if __name__ == "__main__":
    main(*sys.argv[1:])
