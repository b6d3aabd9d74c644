"""The process is killed at each step of each write (calls.c), and what is left is looked at from outside, by a client after a new start.

Guesses: wrong PINs and PUKs, each killed at another step. Of the tries, none comes back, and whoever has seen a byte of an answer has lost one.
Changes: INIT, PAIR, LOAD and the others that change the card, each killed at each of its steps: the card is the one before the command or
the one after it, whole, with the key that its record names. Lengths are in bytes."""
import os

import client as keycard
import tag
from checks import check, same
from client import is_signed, path_bytes, sha256
from sitting import PIN, PUK, SECRET, attempt

NEW_PIN, NEW_PUK = b"135791", b"112233445566"
WRONG_PIN, WRONG_PUK = b"999999", b"999999999999"
SEED, OTHER_KEY = bytes(range(64)), bytes(range(1, 33))
# The steps of one command: 6 of the write, 3 of the answer.
STEPS = ["open", "write", "write", "fsync", "rename", "fsync", "send", "send", "sent"]
# The steps of a first start, until the card is there: the new folder is synced into the one above it, what a cut may have left is deleted.
BIRTH = ["fsync", "unlink", "open", "write", "write", "fsync", "rename", "fsync"]
RENAMED = 5  # the first step at which the new card is in its place


def initialised(bench):
    """A card with a wallet and one pairing."""
    folder = bench.folder()
    with bench.sit(folder) as sitting:
        sitting.begin()
        sitting.client.init(PIN, PUK)
        sitting.client.pair()
        pairing = sitting.client.pairing
    with bench.sit(folder) as sitting:
        sitting.begin(pairing, PIN)
        sitting.client.load(0x03, SEED)
        sitting.client.derive("m/1/2")
    return folder, pairing


def measured(bench, folder, begin, act):
    """At which step the act begins, by the log of a run without a cut; its steps have to be those above."""
    log = os.path.join(bench.work, "calls")
    if os.path.exists(log):
        os.remove(log)
    with bench.sit(bench.folder(folder), log=log) as sitting:
        begin(sitting)
        before = len(sitting.settled())
        act(sitting)
        steps = sitting.settled()
    same([what for _, what, _, _ in steps[before:]], STEPS, "the steps of a command")
    return before


class PinGuess:
    """Wrong PINs. Where no try is left, the owner unblocks the card with the PUK, and it goes on."""

    FULL = 3

    def __init__(self, bench):
        self.folder, self.pairing = initialised(bench)

    def tries(self, client):
        return client.tries()[0]

    def guess(self, client):
        return client.verify(WRONG_PIN)

    def renew(self, bench):
        with bench.sit(self.folder) as sitting:
            sitting.begin(self.pairing)
            same(sitting.client.verify(PIN), 0x63C0, "the right PIN, with no tries left")
            same(sitting.client.status(keycard.UNBLOCK, 0x00, PUK + PIN), keycard.SUCCESS, "UNBLOCK by the owner")


class PukGuess:
    """Wrong PUKs, on a card whose PIN is blocked. Where no try is left there is nothing more to do with it, and a copy of the first one is taken."""

    FULL = 5

    def __init__(self, bench):
        self.blocked, self.pairing = initialised(bench)
        with bench.sit(self.blocked) as sitting:
            sitting.begin(self.pairing)
            while sitting.client.verify(WRONG_PIN) != 0x63C0:
                pass
        self.folder = bench.folder(self.blocked)

    def tries(self, client):
        return client.tries()[1]

    def guess(self, client):
        return client.status(keycard.UNBLOCK, 0x00, WRONG_PUK + PIN)

    def renew(self, bench):
        with bench.sit(self.folder) as sitting:
            sitting.begin(self.pairing)
            same(sitting.client.status(keycard.UNBLOCK, 0x00, PUK + PIN), 0x63C0, "the right PUK, with no tries left")
        self.folder = bench.folder(self.blocked)


def guesses(bench, kind, kills):
    """So many wrong guesses, each killed at another step; gives how many were seen to be wrong, and how many tries were lost."""
    card = kind(bench)
    begin = lambda sitting: (sitting.begin(card.pairing), card.tries(sitting.client))
    first = measured(bench, card.folder, begin, lambda sitting: card.guess(sitting.client)) + 1
    stand_in, seen, seen_since, tries, given = bench.stand_in, 0, 0, kind.FULL, kind.FULL
    for number in range(kills):
        step = number % len(STEPS)
        with bench.sit(card.folder, cut=first + step) as sitting:
            same(begin(sitting)[1], tries, f"tries after {number} cuts")
            stand_in.partial = b""
            status = attempt(lambda: card.guess(sitting.client))
            check(sitting.was_cut(), "the process was not killed")
        lost = step >= RENAMED
        if status is not None or stand_in.partial:
            seen, seen_since = seen + 1, seen_since + 1
            check(lost, f"an answer was seen at step {step}, and no try is lost")
        if status is not None:
            same(status, 0x63C0 + tries - 1, "the answer to a wrong guess")
        tries -= lost
        check(seen_since <= kind.FULL, "more guesses were answered than the card has tries")
        if tries == 0:
            card.renew(bench)
            tries, given, seen_since = kind.FULL, given + kind.FULL, 0
    check(0 < seen <= given - tries, "the answered guesses are not those that the card gave")
    return seen, given - tries


class Observer:
    """What a client sees of a card, after a new start."""

    def __init__(self, bench, pairing):
        self.bench, self.pairing = bench, pairing

    def of(self, folder):
        with self.bench.sit(folder) as sitting:
            info = sitting.begin()
            tap = tag.message(sitting.bench.stand_in.transmit)
            if not info["initialised"]:
                return ("before INIT", info["public_key"])
            client = sitting.client
            seen = [info["uid"], info["free"], info["key_uid"], tap]
            if self.pairing is None:
                return tuple(seen)
            client.pairing = self.pairing
            try:
                client.open()
            except keycard.Refused as why:
                return tuple(seen + [why.status])
            seen += [client.tries(), client.path(), self.signs_without_pin(client)]
            known = next(pin for pin in (PIN, NEW_PIN) if client.verify(pin) == keycard.SUCCESS)
            seen += [known, self.signer(client, info), self.unblocks(client)]
        return tuple(seen)

    @staticmethod
    def signs_without_pin(client):
        return client.status(keycard.SIGN, 0x00, bytes(32)) == keycard.SUCCESS

    @staticmethod
    def signer(client, info):
        """The key that signs; the master key is that of the record."""
        if not info["key_uid"]:
            return client.status(keycard.SIGN, 0x00, bytes(32))
        digest = os.urandom(32)
        key, der = client.sign(digest)
        check(is_signed(key, digest, der), "a signature after a cut is wrong")
        if client.path() == b"":
            same(sha256(key), info["key_uid"], "the key that signs after a cut, and the record's key UID")
        else:
            same(sha256(client.export(b"")[0]), info["key_uid"], "the master key after a cut, and the record's key UID")
        return key

    @staticmethod
    def unblocks(client):
        """Which PUK is right."""
        while client.verify(WRONG_PIN) != 0x63C0:
            pass
        return [puk for puk in (PUK, NEW_PUK) if client.status(keycard.UNBLOCK, 0x00, puk + PIN) == keycard.SUCCESS]


def changes(pairing):
    """The commands that change a card: what each begins with, and the command."""
    verified = lambda sitting: sitting.begin(pairing, PIN)
    sent = lambda *words: lambda sitting: sitting.client.succeed(*words)
    return {
        "LOAD of a seed": (verified, sent(keycard.LOAD, 0x03, SEED[::-1])),
        "LOAD of a plain key": (verified, sent(keycard.LOAD, 0x01, b"\xA1\x22\x81\x20" + OTHER_KEY)),
        "REMOVE": (verified, sent(keycard.REMOVE)),
        "DERIVE": (verified, sent(keycard.DERIVE, 0x00, path_bytes("m/3"))),
        "SET PIN-LESS PATH": (verified, sent(keycard.SET_PINLESS, 0x00, path_bytes("m/1/2"))),
        "EXPORT that moves the path": (verified, sent(keycard.EXPORT, 0x02, path_bytes("m/5"), 0x01)),
        "CHANGE of the PIN": (verified, sent(keycard.CHANGE, 0x00, NEW_PIN)),
        "CHANGE of the PUK": (verified, sent(keycard.CHANGE, 0x01, NEW_PUK)),
        "SET NDEF": (verified, sent(keycard.SET_NDEF, 0x00, b"\x00\x03\xD1\x00\x00")),
        "UNPAIR": (verified, sent(keycard.UNPAIR, 0x00)),
        "PAIR": (lambda sitting: (sitting.begin(), sitting.first()), lambda sitting: sitting.final()),
    }


class Pairing:
    """PAIR's two steps apart from each other, for a sitting."""

    def __init__(self, sitting):
        self.sitting = sitting

    def first(self):
        answer = self.sitting.client.plain(0x80, keycard.PAIR, 0x00, 0x00, bytes(32))
        self.cryptogram = sha256(SECRET, answer[32:])

    def final(self):
        self.sitting.client.plain(0x80, keycard.PAIR, 0x01, 0x00, self.cryptogram)


def changed(bench, rounds):
    """Each change, cut at each of its steps, so many times; gives the number of kills."""
    folder, pairing = initialised(bench)
    observer, kills = Observer(bench, pairing), 0
    for what, (begin, act) in changes(pairing).items():
        kills += cut_at_each_step(bench, folder, observer, what, paired(begin), act, rounds)
    new = bench.folder()
    with bench.sit(new) as sitting:
        sitting.begin()
    begin = lambda sitting: sitting.begin()
    kills += cut_at_each_step(bench, new, Observer(bench, None), "INIT", begin, lambda sitting: sitting.client.init(PIN, PUK), rounds)
    return kills


def paired(begin):
    def begun(sitting):
        pairing = Pairing(sitting)
        sitting.first, sitting.final = pairing.first, pairing.final
        begin(sitting)
    return begun


def cut_at_each_step(bench, folder, observer, what, begin, act, rounds):
    first = measured(bench, folder, begin, act) + 1
    before = observer.of(bench.folder(folder))
    done = bench.folder(folder)
    with bench.sit(done) as sitting:
        begin(sitting)
        act(sitting)
    after = observer.of(done)
    check(before != after, f"{what} changes nothing that can be seen")
    for number in range(rounds * len(STEPS)):
        step = number % len(STEPS)
        copy = bench.folder(folder)
        with bench.sit(copy, cut=first + step) as sitting:
            begin(sitting)
            answer = attempt(lambda: act(sitting) or b"")
            check(sitting.was_cut(), "the process was not killed")
        check(answer is None or step == len(STEPS) - 1, f"{what}: an answer came before its time, at step {step}")
        same(observer.of(copy), after if step >= RENAMED else before, f"the card after {what} was cut at step {step} ({STEPS[step]})")
    return rounds * len(STEPS)


def born(bench, rounds):
    """The first start, which makes the card, cut at each step; then there is a card, and it stays."""
    log = os.path.join(bench.work, "calls-first")
    folder = bench.folder()
    with bench.sit(folder, log=log) as sitting:
        sitting.bench.stand_in.insert()
        sitting.bench.stand_in.atr()
        made = [(what, name) for _, what, name, _ in sitting.steps()[:len(BIRTH)]]
    same([what for what, _ in made], BIRTH, "the steps of a first start")
    same((made[0][1], made[-1][1]), (os.path.dirname(folder), folder), "what is synced first, the folder above, and last, the card's own")
    steps = len(BIRTH)
    for number in range(rounds * steps):
        folder = bench.folder()
        with bench.sit(folder, cut=1 + number % steps) as sitting:
            check(sitting.was_cut(), "the process was not killed")
        with bench.sit(folder) as sitting:
            key = sitting.begin()["public_key"]
        with bench.sit(folder) as sitting:
            same(sitting.begin()["public_key"], key, "the card after the second start")
        check(os.listdir(folder) == ["card"], "something else than the card is left in the folder")
    return rounds * steps
