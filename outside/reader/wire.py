"""What carries commands to the card: the reader's program, a stand-in for vpcd, and PC/SC. Lengths are in bytes; times in seconds."""
import os
import signal
import socket
import subprocess
import time

PATIENCE = 20


class Program:
    """The program under test, with its card in a folder. What it says goes to a file."""

    def __init__(self, program, folder, port, said, environment=None):
        self.said = said
        with open(said, "wb") as out:
            self.process = subprocess.Popen([program, "--port", str(port), folder], stdin=subprocess.DEVNULL, stdout=out,
                                            stderr=subprocess.STDOUT, env={**os.environ, **(environment or {})})

    def text(self):
        with open(self.said, encoding="utf-8") as out:
            return out.read()

    def ended(self, patience=PATIENCE):
        """The exit status; minus the signal's number where a signal ended it."""
        return self.process.wait(patience)

    def memory(self):
        """What the process has in memory, in bytes."""
        with open(f"/proc/{self.process.pid}/status", encoding="ascii") as status:
            return next(int(line.split()[1]) * 1024 for line in status if line.startswith("VmRSS:"))

    def stop(self):
        if self.process.poll() is None:
            self.process.send_signal(signal.SIGKILL)
            self.process.wait(PATIENCE)


class Gone(Exception):
    """The card's end has closed the connection."""


class StandIn:
    """A reader in the place of pcscd and vpcd: it listens, and speaks vpcd's messages to the card."""

    ORDERS = {"off": b"\x00", "on": b"\x01", "reset": b"\x02"}

    def __init__(self):
        self.server = socket.create_server(("127.0.0.1", 0))
        self.server.settimeout(PATIENCE)
        self.port, self.link = self.server.getsockname()[1], None
        self.partial = b""  # what came last, also of a message that did not come whole

    def insert(self, switched_on=True):
        """Takes the card that connects next, and switches it on."""
        self.link, _ = self.server.accept()
        self.link.settimeout(PATIENCE)
        self.link.setsockopt(socket.IPPROTO_TCP, socket.TCP_NODELAY, 1)
        if switched_on:
            self.order("on")

    def eject(self):
        if self.link is not None:
            self.link.close()
            self.link = None

    def raw(self, data):
        try:
            self.link.sendall(data)
        except (BrokenPipeError, ConnectionResetError):
            raise Gone from None

    def order(self, name):
        self.raw(b"\x00\x01" + self.ORDERS[name])

    def atr(self):
        self.raw(b"\x00\x01\x04")
        return self.message()

    def message(self):
        head = self.exactly(2)
        return self.exactly(int.from_bytes(head, "big"))

    def exactly(self, count):
        data = b""
        while len(data) < count:
            try:
                part = self.link.recv(count - len(data))
            except ConnectionResetError:
                part = b""
            if not part:
                raise Gone
            self.partial = part
            data += part
        return data

    def transmit(self, command):
        self.raw(len(command).to_bytes(2, "big") + command)
        return self.message()

    def close(self):
        self.eject()
        self.server.close()


class Pcsc:
    """A connection over PC/SC, by the package pyscard: exclusive, T=1."""

    def __init__(self, number=0):
        from smartcard import scard
        self.api = scard
        self.context = self.done(scard.SCardEstablishContext(scard.SCARD_SCOPE_USER))
        self.name = self.done(scard.SCardListReaders(self.context, []))[number]
        self.card, self.is_t1 = None, False

    def done(self, result):
        """What a function gives after its status, which has to be 0."""
        if isinstance(result, int):
            result = [result]
        if result[0] != self.api.SCARD_S_SUCCESS:
            raise Gone(self.api.SCardGetErrorMessage(result[0]))
        return result[1] if len(result) == 2 else result[1:]

    def connect(self):
        api = self.api
        self.card, protocol = self.done(api.SCardConnect(self.context, self.name, api.SCARD_SHARE_EXCLUSIVE, api.SCARD_PROTOCOL_T1))
        self.is_t1 = protocol == api.SCARD_PROTOCOL_T1

    def atr(self):
        return bytes(self.done(self.api.SCardStatus(self.card))[3])

    def transmit(self, command):
        return bytes(self.done(self.api.SCardTransmit(self.card, self.api.SCARD_PCI_T1, list(command))))

    def reset(self, cold=False):
        """Connects anew; the card is reset, or switched off and on."""
        api = self.api
        how = api.SCARD_UNPOWER_CARD if cold else api.SCARD_RESET_CARD
        self.done(api.SCardReconnect(self.card, api.SCARD_SHARE_EXCLUSIVE, api.SCARD_PROTOCOL_T1, how))

    def is_empty(self):
        """Whether the reader has no card, as pcscd knows it."""
        states = self.done(self.api.SCardGetStatusChange(self.context, 0, [(self.name, self.api.SCARD_STATE_UNAWARE)]))
        return bool(states[0][1] & self.api.SCARD_STATE_EMPTY)

    def disconnect(self):
        """The client goes, and the card with it: unpowered."""
        if self.card is not None:
            self.api.SCardDisconnect(self.card, self.api.SCARD_UNPOWER_CARD)
            self.card = None

    def close(self):
        self.disconnect()
        self.api.SCardReleaseContext(self.context)


def until(holds, what, patience=PATIENCE):
    """Waits until it holds."""
    end = time.monotonic() + patience
    while not holds():
        if time.monotonic() > end:
            raise TimeoutError(f"{what}: not within {patience} seconds")
        time.sleep(0.02)
