"""pcscd with vpcd for a test, stock tools at it, and the lives that go over PC/SC. Lengths are in bytes; times in seconds."""
import os
import random
import signal
import socket
import subprocess
import tempfile
import time

import abuse
import flows
import life
from checks import check, same
from client import SUCCESS
from wire import Gone, Pcsc, Program, until

DEBIANS_CONFIGURATION = "/etc/reader.conf.d/vpcd"
DEBIANS_PORT = 0x8C7B
SOCKET = "/run/pcscd/pcscd.comm"


def answers():
    """Whether a pcscd listens."""
    with socket.socket(socket.AF_UNIX) as tried:
        return tried.connect_ex(SOCKET) == 0


def free_port():
    """A port that is free, and the one after it: vpcd has two slots."""
    while True:
        port = random.randrange(20_000, 60_000)
        try:
            with socket.create_server(("127.0.0.1", port)), socket.create_server(("127.0.0.1", port + 1)):
                return port
        except OSError:
            continue


class Daemon:
    """A pcscd of this test's own, with vpcd at a port of its own."""

    def __init__(self, work):
        self.port = free_port()
        folder = tempfile.mkdtemp(dir=work)
        with open(DEBIANS_CONFIGURATION, encoding="ascii") as debians, open(os.path.join(folder, "vpcd"), "w", encoding="ascii") as own:
            own.write(debians.read().replace(f"0x{DEBIANS_PORT:X}", f"0x{self.port:X}"))
        self.said = os.path.join(work, "said-pcscd")
        with open(self.said, "wb") as out:
            self.process = subprocess.Popen(["pcscd", "--foreground", "--config", folder], stdin=subprocess.DEVNULL, stdout=out, stderr=out)
        until(answers, "pcscd")

    def stop(self):
        self.process.terminate()
        self.process.wait(20)


def output(*words):
    return subprocess.run(words, stdin=subprocess.DEVNULL, capture_output=True, text=True, timeout=20, check=False).stdout


def card_is_there():
    """A connection to the card over PC/SC, once there is one."""
    found = []

    def tried():
        try:
            wire = Pcsc()
        except Gone:
            return False
        try:
            wire.connect()
        except Gone:
            wire.close()
            return False
        found.append(wire)
        return True
    until(tried, "a card in the reader")
    return found[0]


def card_is_gone():
    """Waits until pcscd has seen that there is no card. It looks every 0.4 seconds; a card that is pulled while a client has it and put in again
    before pcscd has looked, it does not see come in."""
    time.sleep(1)
    wire = Pcsc()
    until(wire.is_empty, "a reader without a card")
    wire.close()


def stock_tools():
    """What Debian's tools say of the card."""
    atr = life.ATR.hex(":")
    listed = output("opensc-tool", "-l")
    check("Virtual PCD 00 00" in listed and " Yes " in listed, f"opensc-tool -l lists: {listed}")
    check(atr in output("opensc-tool", "-r", "0", "-a"), "opensc-tool -a has another answer to reset")
    sent = output("opensc-tool", "-r", "0", "-s", "00A404000F53746174757357616C6C6574417070")
    check("SW1=0x90, SW2=0x00" in sent, f"opensc-tool -s of SELECT: {sent}")
    scanned = output("pcsc_scan", "-c")
    check("Card inserted" in scanned and life.ATR.hex(" ").upper() in scanned, f"pcsc_scan says: {scanned}")


def second_is_refused(tools_reader, folder, said):
    with open(said, "w+", encoding="utf-8") as out:
        second = subprocess.Popen([tools_reader, folder], stdin=subprocess.DEVNULL, stdout=out, stderr=out)
        try:
            status = second.wait(20)
        except subprocess.TimeoutExpired:
            second.terminate()
            second.wait(20)
            status = None
        out.seek(0)
        check(status == 1 and "another process has the card" in out.read(), f"a second tools/reader has the exit status {status}, where 1 should be")


def command(tools_reader, work):
    """tools/reader as its user starts it: it starts pcscd, a second one is refused, and it leaves nothing behind."""
    folder, said = os.path.join(work, "by-the-command"), os.path.join(work, "said-command")
    with open(said, "wb") as out:
        process = subprocess.Popen([tools_reader, folder], stdin=subprocess.DEVNULL, stdout=out, stderr=out)
    try:
        wire = card_is_there()
        wire.close()
        stock_tools()
        second_is_refused(tools_reader, folder, os.path.join(work, "said-second"))
        wire = card_is_there()
        client, seed = life.play(wire)
        wire.close()
        check(process.poll() is None, "tools/reader has ended")
    finally:
        process.send_signal(signal.SIGTERM)
        process.wait(20)
    until(lambda: not answers(), "the end of the pcscd that tools/reader started")
    return folder, client, seed


def unplugged(program, work, port, folder, client, seed):
    """The card is pulled in the middle: after the PIN, before the signature, and while a wrong PIN is on its way."""
    said = os.path.join(work, "said-unplugged")
    card = Program(program, folder, port, said)
    try:
        wire = card_is_there()
        client.transmit = wire.transmit
        client.connected(life.PIN)
        card.stop()
        for _ in range(2):
            try:
                client.sign(bytes(32))
                check(False, "a card that was pulled signs")
            except Gone:
                pass
        wire.close()
        card_is_gone()
        card = Program(program, folder, port, said)
        wire = card_is_there()
        client.transmit = wire.transmit
        same(life.refused(client.tries), 0x6985, "the channel of a card that was pulled")
        client.connected()
        same(client.verify(life.WRONG_PIN), 0x63C2, "a wrong PIN")
        card.stop()
        wire.close()
        card_is_gone()
        card = Program(program, folder, port, said)
        wire = card_is_there()
        client.transmit = wire.transmit
        client.connected()
        same(client.tries()[0], 2, "the tries of a card that was pulled after a wrong PIN")
        same(client.verify(life.PIN), SUCCESS, "the right PIN")
        client.derive(life.WALLET)
        life.signs(client, life.uncompressed(life.wallet_key(seed, life.WALLET).PublicKey()), "after the card was pulled")
        wire.close()
    finally:
        card.stop()
    card_is_gone()


def many_commands(program, work, port, folder, client, count):
    """Bad commands through pcscd, and clients that go away in the middle."""
    card = Program(program, folder, port, os.path.join(work, "said-many"))
    try:
        wire = card_is_there()
        client.transmit = wire.transmit
        client.connected(life.PIN)
        abuse.over_pcsc(client, wire, count)
        # A client that goes without a word: a process of its own that is killed with its channel open.
        wire.close()
        gone = os.fork()
        if gone == 0:
            lonely = card_is_there()
            client.transmit = lonely.transmit
            client.connected(life.PIN)
            os.kill(os.getpid(), signal.SIGKILL)
        os.waitpid(gone, 0)
        wire = card_is_there()
        client.transmit = wire.transmit
        same(life.refused(client.tries), 0x6985, "the channel of a client that was killed")
        client.connected(life.PIN)
        wire.close()
        check(card.process.poll() is None, "the program has ended")
    finally:
        card.stop()
    card_is_gone()


def usage(program, work, port):
    """The flows of the usage paper, on a card of their own."""
    card = Program(program, os.path.join(work, "flows"), port, os.path.join(work, "said-flows"))
    try:
        wire = card_is_there()
        flows.play(wire)
        wire.close()
    finally:
        card.stop()
    card_is_gone()
