"""The card's folder: one process, its owner alone, a damaged card refused and kept, and no answer where nothing can be stored. Lengths are in
bytes."""
import os
import random
import stat
import subprocess

from checks import check, same
from client import apdu
from cuts import initialised
from sitting import PIN, attempt
from wire import Program

FLIPS = 150


def status_and_text(bench, folder):
    """The exit status, none where the program does not end, and what it says."""
    program = Program(bench.program, folder, bench.stand_in.port, os.path.join(bench.work, "said-alone"))
    try:
        return program.ended(5), program.text()
    except subprocess.TimeoutExpired:
        return None, program.text()
    finally:
        program.stop()


def one_process(bench):
    folder, pairing = initialised(bench)
    with bench.sit(folder) as sitting:
        sitting.begin(pairing, PIN)
        status, text = status_and_text(bench, folder)
        same(status, 1, "the exit status of a second process")
        check("another process has the card" in text, f"the second process says: {text}")
        same(sitting.client.tries()[0], 3, "the first process after it")
    with bench.sit(folder) as sitting:  # the lock has gone with the process
        sitting.begin(pairing, PIN)


def modes(bench):
    folder = bench.folder()
    with bench.sit(folder) as sitting:
        sitting.begin()
        same(stat.S_IMODE(os.stat(folder).st_mode), 0o700, "the folder's mode")
        same({name: stat.S_IMODE(os.stat(os.path.join(folder, name)).st_mode) for name in os.listdir(folder)}, {"card": 0o600}, "the files' modes")
    os.chmod(folder, 0o755)
    status, text = status_and_text(bench, folder)
    check(status == 1 and "open to others" in text, f"a folder that others may read: {text}")
    # What a cut has left of a write is gone after the next start, whatever its mode was.
    os.chmod(folder, 0o700)
    left = os.path.join(folder, "card.new")
    with open(left, "wb") as file:
        file.write(b"keys of a write that was not finished")
    os.chmod(left, 0o644)
    with bench.sit(folder) as sitting:
        sitting.begin()
        same({name: stat.S_IMODE(os.stat(os.path.join(folder, name)).st_mode) for name in os.listdir(folder)}, {"card": 0o600}, "what is left")
    nested = os.path.join(bench.folder(), "a", "b")
    with bench.sit(nested) as sitting:
        sitting.begin()
    same(stat.S_IMODE(os.stat(os.path.dirname(nested)).st_mode), 0o700, "the mode of a folder above")


def damaged(bench):
    """Each byte that is changed, each length: refused in words, exit status 1, and the file is as it was."""
    folder, pairing = initialised(bench)
    path, choice = os.path.join(folder, "card"), random.Random(5)
    with open(path, "rb") as file:
        whole = file.read()
    copies = [whole[:at] + bytes([whole[at] ^ 1 << choice.randrange(8)]) + whole[at + 1:] for at in sorted(choice.sample(range(len(whole)), FLIPS))]
    copies += [whole[:count] for count in (0, 1, 7, 8, 39, 40, 100, len(whole) - 1)] + [whole + b"\x00", bytes(len(whole)), whole[::-1]]
    for copy in copies:
        with open(path, "wb") as file:
            file.write(copy)
        status, text = status_and_text(bench, folder)
        check(status == 1 and "cannot be used" in text and "stays as it is" in text, f"a damaged card: exit status {status}, {text}")
        with open(path, "rb") as file:
            same(file.read(), copy, "the damaged file afterwards")
        same(os.listdir(folder), ["card"], "the folder of a damaged card")
    with open(path, "wb") as file:
        file.write(whole)
    with bench.sit(folder) as sitting:
        sitting.begin(pairing, PIN)
    return len(copies)


def not_stored(bench):
    """Where the card cannot be stored there is no answer, and the program ends with a message."""
    folder, pairing = initialised(bench)
    with bench.sit(folder) as sitting:
        sitting.begin(pairing)
        away = folder + "-away"
        os.rename(folder, away)
        same(attempt(lambda: sitting.client.verify(b"999999")), None, "an answer that is not stored")
        same(sitting.program.ended(), 1, "the exit status")
        check("not stored" in sitting.program.text(), f"it says: {sitting.program.text()}")
    with bench.sit(away) as sitting:
        sitting.begin(pairing)
        same(sitting.client.tries()[0], 3, "the tries, where nobody got an answer")


def wrong_use(bench):
    for words in ([], ["a", "b"], ["--port"], ["--port", "0", "a"], ["--port", "70000", "a"], ["--nothing", "a"], [""]):
        ended = subprocess.run([bench.program, *words], stdin=subprocess.DEVNULL, capture_output=True, timeout=5, check=False)
        check(ended.returncode == 2 and b"usage" in ended.stderr, f"the use {words}")


def orders(bench):
    """Power and reset at the socket, and a driver that goes: each is RESET, and an order gets no answer."""
    folder, pairing = initialised(bench)
    with bench.sit(folder) as sitting:
        for order in ("off", "on", "reset"):
            if sitting.client is None:
                sitting.begin(pairing, PIN)
            else:
                sitting.client.connected(PIN)
            bench.stand_in.order(order)
            same(bench.stand_in.transmit(apdu(0x80, 0xF2, 0, 0)), b"\x69\x85", f"the channel after {order}")
        sitting.client.connected(PIN)
        bench.stand_in.eject()
        bench.stand_in.insert(switched_on=False)
        same(bench.stand_in.transmit(apdu(0x80, 0xF2, 0, 0)), b"\x69\x85", "the channel after the driver has gone")


def play(bench):
    one_process(bench)
    modes(bench)
    not_stored(bench)
    wrong_use(bench)
    orders(bench)
    return damaged(bench)
