"""Bad input in bulk: random and damaged commands, extended lengths, messages cut in the middle, a driver that goes. No crash, memory does not
grow, and the card is sound afterwards. All of it is seeded, so that a run can be had again. Lengths are in bytes."""
import random
import time

import client as keycard
from checks import check, same
from client import apdu
from cuts import SEED, initialised
from life import signs, uncompressed, wallet_key
from sitting import PIN
from wire import Gone, until

# Instructions that are not sealed at random: they use up tries, change PIN or pairing, with which the run
# goes on, are never sealed, or unknown to the card, which answers those in the clear.
KEPT = {keycard.VERIFY, keycard.UNBLOCK, keycard.UNPAIR, keycard.CHANGE, keycard.SELECT, keycard.INIT, keycard.OPEN, keycard.PAIR,
        0xD4, 0xD5, 0xB0}
KNOWN = [keycard.SELECT, keycard.INIT, keycard.OPEN, keycard.MUTUAL, keycard.PAIR, keycard.UNPAIR, keycard.GET_STATUS, keycard.VERIFY,
         keycard.CHANGE, keycard.UNBLOCK, keycard.LOAD, keycard.DERIVE, keycard.GENERATE, keycard.REMOVE, keycard.SIGN, keycard.SET_PINLESS,
         keycard.EXPORT, keycard.SET_NDEF, 0xD4, 0xD5, 0xB0]
# What the process may grow by over the second half of the commands: 16 pages of 4,096 bytes.
GROWTH_MOST_BYTES = 16 * 4_096
# A round: a new channel, so many sealed commands, then one damaged and others that are not sealed.
ROUND, SEALED = 200, 80


class Bad:
    """Bad commands, by a seed."""

    def __init__(self, seed):
        self.random = random.Random(seed)

    def bytes(self, most):
        return self.random.randbytes(self.random.randint(0, most))

    def any(self):
        """Random bytes, mostly short."""
        return self.bytes(self.random.choice([1, 4, 5, 8, 40, 262, 300, 2_000]))

    def likely(self):
        """A head that the card knows, and data of any kind."""
        pick = self.random.choice
        head = bytes([pick([0x80, 0x00, 0x80, self.random.randrange(256)]), pick(KNOWN), pick([0, 1, 2, 4, self.random.randrange(256)]),
                      pick([0, 0, 1, self.random.randrange(256)])])
        data = self.random.randbytes(pick([0, 1, 6, 16, 32, 65, 146, 223, 255]))
        lc = bytes([pick([len(data) & 0xFF, self.random.randrange(256)])])
        return head + lc + data + self.bytes(2)

    def extended(self):
        """Extended lengths, true and untrue ones."""
        data = self.bytes(self.random.choice([0, 300, 4_000, 65_000]))
        count = self.random.choice([len(data), self.random.randrange(65_536)])
        head = bytes([0x80, self.random.choice(KNOWN), 0x00, 0x00, 0x00])
        return (head + count.to_bytes(2, "big") + data + self.random.choice([b"", b"\0\0", b"\0\0\0"]))[:65_535]

    def damaged(self, command):
        """A good command with a byte changed, cut, doubled, or more bytes behind it."""
        at, way = self.random.randrange(len(command)), self.random.randrange(5)
        if way == 0:
            return command[:at] + bytes([command[at] ^ (1 << self.random.randrange(8))]) + command[at + 1:]
        if way == 1:
            return command[:at]
        if way == 2:
            return command + command
        return command + self.bytes(4) if way == 3 else command[:4] + bytes([self.random.randrange(256)]) + command[5:]

    def unsealed(self):
        """Any of the first three. A message of one byte may be an order to the reader, and is none of them."""
        command = self.random.choice([self.any, self.likely, self.likely, self.extended])()
        return command if len(command) != 1 else b""

    def sealed(self, client):
        """A command that opens: random content behind a true MAC."""
        ins = self.random.choice([ins for ins in KNOWN if ins not in KEPT])
        content = self.random.choice([b"\xA1\x22\x81\x20" + self.random.randbytes(32), self.random.randbytes(4 * self.random.randrange(11)),
                                      self.bytes(223), b"\x00\x03\xD0\x00\x00", self.random.randbytes(64)])
        return client.seal(ins, self.random.choice([0, 1, 2, 3, 4, 8]), content, self.random.choice([0, 0, 0, 1, 7]))


def bulk(client, transmit, count, seed):
    """So many bad commands over any wire, in rounds of a new channel each; gives how often each status word came in the clear."""
    bad, words = Bad(seed), {}

    def sent(command):
        answer = transmit(command)
        check(2 <= len(answer) <= 258, f"an answer of {len(answer)} bytes to {command[:16].hex()}")
        word = answer[-2:].hex().upper()
        words[word] = words.get(word, 0) + 1
        return answer

    for number in range(count):
        place = number % ROUND
        if place == 0:
            client.connected(PIN)
        if place < SEALED:
            client.unseal(sent(bad.sealed(client)))
        elif place == SEALED:
            sent(bad.damaged(client.seal(keycard.GET_STATUS)))
        else:
            sent(bad.unsealed())
    return words


def over_the_socket(bench, count):
    """All of it at the stand-in for vpcd. Gives status words, commands a second and how much memory grew."""
    folder, pairing = initialised(bench)
    with bench.sit(folder) as sitting:
        sitting.begin(pairing, PIN)
        transmit = bench.stand_in.transmit
        start = time.monotonic()
        words = bulk(sitting.client, transmit, count // 2, 1)
        before = sitting.program.memory()
        for word, times in bulk(sitting.client, transmit, count - count // 2, 2).items():
            words[word] = words.get(word, 0) + times
        took, grown = time.monotonic() - start, sitting.program.memory() - before
        check(sitting.program.process.poll() is None, "the program has ended")
        check(grown <= GROWTH_MOST_BYTES, f"the process has grown by {grown} bytes")
        cut_messages(bench, sitting)
        sound(sitting, pairing)
    with bench.sit(folder) as sitting:
        sitting.begin(pairing, PIN)
        sound(sitting, pairing)
    for word in ("6700", "6E00", "6D00", "6982", "6985", "6A86", "6A80", "9000"):
        check(word in words, f"the status word {word} never came")
    return words, count / took, grown


def cut_messages(bench, sitting):
    """Messages that end in the middle, and a driver that goes: the card is put in anew, and has no channel."""
    stand_in = bench.stand_in
    for cut in (b"\x00", b"\x00\x05\x80", b"\xFF\xFF" + bytes(1_000), b"\x00\x14\x00\xA4\x04\x00\x0F", b"\x00\x01"):
        stand_in.raw(cut)
        stand_in.eject()
        stand_in.insert()
        same(stand_in.transmit(apdu(0x80, keycard.GET_STATUS, 0, 0)), b"\x69\x85", "GET STATUS after a driver that went")
    # An answer that nobody takes.
    stand_in.raw(b"\x00\x04\x80\xF2\x00\x00" * 50)
    stand_in.eject()
    stand_in.insert()
    # Many messages at once, each of them answered; orders that are none are commands.
    stand_in.raw(b"\x00\x04\x80\xF2\x00\x00" * 50 + b"\x00\x01\x02" * 10)
    same([stand_in.message() for _ in range(50)], [b"\x69\x85"] * 50, "the answers to many messages at once")
    for order in (0x03, 0x05, 0xFF):
        same(stand_in.transmit(bytes([order])), b"\x67\x00", "one byte that is no order")
    same(stand_in.transmit(b""), b"\x67\x00", "a message of no bytes")


def sound(sitting, pairing):
    """A card that does all it should: tries, LOAD, DERIVE, SIGN."""
    client = sitting.client
    client.pairing = pairing
    client.connected(PIN)
    same(client.tries()[:2], (3, 5), "the tries after bad input")
    client.load(0x03, SEED)
    client.derive("m/1/2")
    signs(client, uncompressed(wallet_key(SEED, "m/1/2").PublicKey()), "after bad input")


def over_pcsc(client, wire, count):
    """Some of it through pcscd, which carries no command without a byte."""
    bulk(client, lambda command: wire.transmit(command or b"\x03"), count, 3)
    client.connected(PIN)
    # A command of one byte is an order to the driver's card, which answers none: the card pulls itself out, and comes back.
    start = time.monotonic()
    try:
        same(wire.transmit(b"\x00"), b"", "the answer to an order")
    except Gone:
        pass
    waited = time.monotonic() - start
    check(waited < 6, f"pcscd waited {waited:.1f} seconds for an answer to an order")
    wire.disconnect()
    until(lambda: connects(wire), "the card after it has pulled itself out")
    client.connected(PIN)


def connects(wire):
    try:
        wire.connect()
    except Gone:
        return False
    return True
