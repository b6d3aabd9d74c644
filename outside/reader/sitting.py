"""One start of the reader's program, with a client at a stand-in for vpcd. Lengths are in bytes."""
import os
import shutil
import signal

from client import Client
from wire import Gone, Program, StandIn, until

PIN, PUK = b"024680", b"918273645546"
SECRET = bytes(range(32))


class Bench:
    """What all sittings share: the program, the library of calls.c, and a folder for their folders."""

    def __init__(self, program, calls, work):
        self.program, self.calls, self.work, self.made = program, calls, work, 0
        self.stand_in = StandIn()

    def folder(self, of=None):
        """A new name; with a copy of another card's folder."""
        self.made += 1
        path = os.path.join(self.work, f"card-{self.made}")
        if of is not None:
            shutil.copytree(of, path)
            os.chmod(path, 0o700)
        return path

    def sit(self, folder, cut=None, log=None):
        return Sitting(self, folder, cut, log)


class Sitting:
    """The program with this folder, from its start to its end; cut at a step, where one is named."""

    def __init__(self, bench, folder, cut=None, log=None):
        self.bench, self.folder, self.log = bench, folder, log
        environment = {}
        if cut is not None or log is not None:
            environment["LD_PRELOAD"] = bench.calls
        if cut is not None:
            environment["CALLS_CUT"] = str(cut)
        if log is not None:
            environment["CALLS_LOG"] = log
        self.program = Program(bench.program, folder, bench.stand_in.port, os.path.join(bench.work, "said"), environment)
        self.client = None

    def __enter__(self):
        return self

    def __exit__(self, *_):
        self.program.stop()
        self.bench.stand_in.eject()

    def begin(self, pairing=None, pin=None):
        """The card is put in; with a pairing the channel is opened, with a PIN it is verified."""
        self.bench.stand_in.insert()
        self.client = Client(self.bench.stand_in.transmit, SECRET)
        info = self.client.select()
        if pairing is not None:
            self.client.pairing = pairing
            self.client.open()
        if pin is not None and self.client.verify(pin) != 0x9000:
            raise ValueError("the PIN is not right")
        return info

    def steps(self):
        """The steps passed so far, by the log: number, what, name, bytes."""
        with open(self.log, encoding="ascii") as log:
            lines = [line.rstrip("\n").split(" ") for line in log if line.endswith("\n")]
        return [(int(number), what, name, bytes.fromhex(data)) for number, what, name, data in lines]

    def settled(self):
        """The steps passed, once the last answer is wholly sent."""
        until(lambda: self.steps()[-1][1] == "sent", "the end of an answer")
        return self.steps()

    def was_cut(self):
        """Waits for the end; whether it was the cut."""
        return self.program.ended() == -signal.SIGKILL


def attempt(act):
    """What came back, or none where the card was cut off before all of it had come."""
    try:
        return act()
    except Gone:
        return None
