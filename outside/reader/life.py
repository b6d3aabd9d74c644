"""A card's whole life over PC/SC, by a client of which no line is the engine's. What comes back is held to other libraries: keys of paths to
bip32utils, signatures to cryptography, recovery phrases to mnemonic and its word list. Lengths are in bytes."""
import os

from bip32utils import BIP32Key
from mnemonic import Mnemonic

import client as keycard
import tag
from checks import check, same
from client import Client, Refused, is_signed, path_bytes, public_of, sha256, uncompressed

PIN, PUK = b"024680", b"918273645546"
NEW_PIN, NEW_PUK = b"135791", b"112233445566"
WRONG_PIN, WRONG_PUK = b"999999", b"999999999999"
CHAT = "m/43'/60'/1581'"
WALLET = "m/44'/60'/0'/0/0"
SLOTS = 8
# What the reader's page promises: T=1, and 11 letters of the card issuer's data.
ATR = bytes.fromhex("3B8D01805B54726561646C657769737005")


def wallet_key(seed, path):
    """The key of a path by bip32utils."""
    key = BIP32Key.fromEntropy(seed)
    for component in path.split("/")[1:]:
        key = key.ChildKey(int(component.rstrip("'")) + (keycard.HARDENED if component.endswith("'") else 0))
    return key


def refused(act):
    """The status word of a command that is refused in the clear; 9000 where it is not."""
    try:
        act()
    except Refused as why:
        return why.status
    return keycard.SUCCESS


def answer_to_reset(wire):
    atr = wire.atr()
    same(atr, ATR, "the answer to reset")
    historical = atr[1] & 0x0F
    same((atr[0], atr[1] >> 4, atr[2]), (0x3B, 0x8, 0x01), "the head of the answer to reset: T=1 alone")
    same(len(atr), 3 + historical + 1, "the length of the answer to reset")
    total = 0
    for byte in atr[1:]:
        total ^= byte
    same(total, 0, "the check byte of the answer to reset")


def first_contact(wire, secret):
    """SELECT, INIT and PAIR, with what is refused before and after."""
    client = Client(wire.transmit, secret, le=b"\x00")
    same(wire.transmit(bytes.fromhex("80F20000")), b"\x6D\x00", "GET STATUS before INIT")
    check(not client.select()["initialised"], "the card is new")
    same(wire.transmit(keycard.apdu(0x00, 0xA4, 0x04, 0x00, b"NotTheWallet123")), b"\x6A\x82", "SELECT of another application")
    off_curve = b"\x04" + b"\x11" * 64
    same(refused(lambda: client.plain(0x80, keycard.INIT, 0, 0, b"\x41" + off_curve + bytes(80))), 0x6A80, "INIT with a point off the curve")
    client.init(PIN, PUK)
    same(refused(lambda: client.init(PIN, PUK)), 0x6D00, "INIT a second time")
    info = client.select()
    same((info["initialised"], info["version"], info["free"], info["key_uid"]), (True, b"\x02\x00", SLOTS, b""), "SELECT after INIT")
    same(len(info["uid"]), 16, "the length of the UID")
    stranger = Client(wire.transmit, os.urandom(32))
    try:
        stranger.pair()
        check(False, "a client pairs without the pairing secret")
    except ValueError:
        pass
    same(client.pair(), 0, "the slot of the first pairing")
    same(client.select()["free"], SLOTS - 1, "free slots after it")
    return client


def pins(wire, client):
    """VERIFY, UNBLOCK and CHANGE, to the last try and back."""
    client.connected()
    same(client.tries(), (3, 5, False), "tries after INIT")
    same(client.status(keycard.CHANGE, 0x00, NEW_PIN), 0x6985, "CHANGE without a PIN")
    same(client.verify(WRONG_PIN), 0x63C2, "a wrong PIN")
    same(client.verify(PIN), keycard.SUCCESS, "the right PIN")
    same(client.tries(), (3, 5, False), "tries after the right PIN")
    same([client.verify(WRONG_PIN) for _ in range(3)], [0x63C2, 0x63C1, 0x63C0], "three wrong PINs")
    same(client.verify(PIN), 0x63C0, "the right PIN, with no tries left")
    wire.reset()
    client.connected()
    same(client.tries(), (0, 5, False), "tries after a reset")
    same(client.status(keycard.UNBLOCK, 0x00, WRONG_PUK + NEW_PIN), 0x63C4, "UNBLOCK with a wrong PUK")
    same(client.status(keycard.UNBLOCK, 0x00, PUK + NEW_PIN), keycard.SUCCESS, "UNBLOCK")
    same(client.tries(), (3, 5, False), "tries after UNBLOCK")
    same(client.verify(NEW_PIN), keycard.SUCCESS, "the new PIN")
    same(client.status(keycard.UNBLOCK, 0x00, PUK + PIN), 0x6985, "UNBLOCK while tries are left")
    same(client.status(keycard.CHANGE, 0x01, NEW_PUK), keycard.SUCCESS, "CHANGE of the PUK")
    same(client.status(keycard.CHANGE, 0x00, b"12345"), 0x6A80, "CHANGE to a short PIN")
    same(client.status(keycard.CHANGE, 0x00, PIN), keycard.SUCCESS, "CHANGE of the PIN")
    wire.reset(cold=True)
    client.connected()
    same(client.verify(NEW_PIN), 0x63C2, "the old PIN after CHANGE")
    same(client.verify(PIN), keycard.SUCCESS, "the PIN after CHANGE")


def signs(client, public_key, what):
    digest = os.urandom(32)
    key, der = client.sign(digest)
    same(key, public_key, f"the key that signs, {what}")
    check(is_signed(key, digest, der), f"the signature, {what}, is wrong or has the higher s")
    check(not is_signed(key, os.urandom(32), der), "a signature of other bytes is taken")


def loads(client):
    """LOAD in each form, each with a key of its own."""
    key, chain = os.urandom(32), os.urandom(32)
    public_key, other = public_of(key), public_of(os.urandom(32))
    private, public = b"\x81\x20" + key, b"\x80\x41" + public_key
    code = b"\x82\x20" + chain
    forms = [
        ("a keypair, its private key alone", 0x01, b"\xA1\x22" + private, False),
        ("a keypair", 0x01, b"\xA1\x65" + public + private, False),
        ("an extended key, its private key alone", 0x02, b"\xA1\x44" + private + code, True),
        ("an extended keypair", 0x02, b"\xA1\x81\x87" + public + private + code, True),
    ]
    for what, p1, data, extended in forms:
        same(client.load(p1, data), sha256(public_key), f"LOAD's key UID, {what}")
        signs(client, public_key, what)
        same(client.status(keycard.DERIVE, 0x00, path_bytes("m/0")), keycard.SUCCESS if extended else 0x6985, f"DERIVE of {what}")
        if extended:
            child = BIP32Key(key, chain, 0, 0, b"\0\0\0\0").ChildKey(0)
            signs(client, uncompressed(child.PublicKey()), f"a child of {what}")
        same(client.status(keycard.REMOVE), keycard.SUCCESS, "REMOVE")
        same(client.status(keycard.SIGN, 0x00, bytes(32)), 0x6985, "SIGN without a key")
    same(client.status(keycard.LOAD, 0x01, b"\xA1\x65\x80\x41" + other + private), 0x6A80, "LOAD with the public key of another key")
    same(client.status(keycard.LOAD, 0x01, b"\xA1\x22\x81\x20" + bytes(32)), 0x6A80, "LOAD of the private key 0")
    same(client.status(keycard.LOAD, 0x01, b"\xA1\x22\x81\x20" + b"\xFF" * 32), 0x6A80, "LOAD of a private key above the curve's order")
    same(client.status(keycard.LOAD, 0x01, b"\xA1\x23\x81\x21" + key), 0x6A80, "LOAD with a wrong length")
    same(client.tries(), (3, 5, False), "no key after these")


def phrases(client):
    """GENERATE in each length; the last becomes the wallet. Gives its seed."""
    words, seed = Mnemonic("english"), None
    for p1, count in ((0x04, 12), (0x05, 15), (0x06, 18), (0x07, 21), (0x08, 24)):
        numbers, others = client.words(p1), client.words(p1)
        same(len(numbers), count, f"the number of words for P1 {p1:02X}")
        check(numbers != others, "the same phrase twice")
        phrase = " ".join(words.wordlist[number] for number in numbers)
        check(words.check(phrase), f"the checksum of {count} words is wrong")
        seed = words.to_seed(phrase, passphrase="")
    same(client.load(0x03, seed), sha256(uncompressed(BIP32Key.fromEntropy(seed).PublicKey())), "the key UID of a seed")
    return seed


def keys(wire, client, seed):
    """DERIVE, SIGN, EXPORT and the PIN-less path, against bip32utils."""
    for path in ("m", "m/0", "m/44'/60'/0'/0/0", CHAT + "/0'/0", "m/2147483647'/1/2/3/4/5/6/7/8/9"):
        key = wallet_key(seed, path)
        public_key = uncompressed(key.PublicKey())
        client.derive(path)
        same(client.path(), path_bytes(path), f"the current path at {path}")
        signs(client, public_key, f"at {path}")
        same(client.export(b"", p1=0x00), (public_key, None), f"EXPORT of the current key at {path}")
    client.derive(WALLET)
    for path in (CHAT, CHAT + "/0'/0", CHAT + "/1'/0"):
        key = wallet_key(seed, path)
        same(client.export(path_bytes(path), private=True), (uncompressed(key.PublicKey()), key.PrivateKey()), f"EXPORT of both keys of {path}")
    same(client.status(keycard.EXPORT, 0x01, path_bytes(WALLET), 0x00), 0x6985, "EXPORT of a private key that holds money")
    same(client.status(keycard.EXPORT, 0x01, b"\0\0\0"), 0x6A80, "EXPORT of no path")
    same(client.path(), path_bytes(WALLET), "the current path after EXPORT with P1 01")
    client.export(path_bytes("m/1/2"), p1=0x02)
    same(client.path(), path_bytes("m/1/2"), "the current path after EXPORT with P1 02")
    # The PIN-less path: it signs in a new channel without a PIN, and no other path does.
    client.succeed(keycard.SET_PINLESS, 0x00, path_bytes(WALLET))
    wire.reset()
    client.connected()
    same(client.status(keycard.SIGN, 0x00, bytes(32)), 0x6985, "SIGN of another path without a PIN")
    client.derive(WALLET)
    signs(client, uncompressed(wallet_key(seed, WALLET).PublicKey()), "of the PIN-less path, without a PIN")
    same(client.status(keycard.EXPORT, 0x00, b"", 0x01), 0x6985, "EXPORT without a PIN")


def tap_record(wire, client):
    """SET NDEF, and what a reader of tags then reads."""
    same(tag.message(wire.transmit), b"\xD0\x00\x00", "the tap record of a card that has none of its own")
    same(refused(client.tries), 0x6985, "the channel after another application was selected")
    for message in (bytes.fromhex("D1010C55046578616D706C652E636F6D"), os.urandom(221), b""):
        client.connected(PIN)
        same(client.status(keycard.SET_NDEF, 0x00, (len(message) + 1).to_bytes(2, "big") + message), 0x6A80, "SET NDEF with a wrong count")
        same(client.status(keycard.SET_NDEF, 0x00, len(message).to_bytes(2, "big") + message), keycard.SUCCESS, "SET NDEF")
        same(tag.message(wire.transmit), message, "the tap record")
    same(wire.transmit(bytes.fromhex("00B0FFFF00")), b"\x6B\x00", "READ BINARY past the end")
    same(wire.transmit(bytes.fromhex("00A4000C02E105")), b"\x6A\x82", "SELECT of another file")
    same(wire.transmit(bytes.fromhex("00B0000002")), b"\x69\x86", "READ BINARY without a file")
    client.select()
    same(wire.transmit(bytes.fromhex("00B0000002")), b"\x6E\x00", "READ BINARY in the wallet's application")


def pairings(wire, client, secret):
    """Eight clients pair; the ninth is refused; one is unpaired."""
    clients = [client]
    wire.reset()
    client.select()
    for slot in range(1, SLOTS):
        another = Client(wire.transmit, secret)
        another.select()
        same(another.pair(), slot, "the slot of the next pairing")
        clients.append(another)
    ninth = Client(wire.transmit, secret)
    same(ninth.select()["free"], 0, "free slots after eight pairings")
    same(refused(ninth.pair), 0x6A84, "a ninth pairing")
    for each in clients:
        each.connected(PIN)
    same(clients[-1].status(keycard.UNPAIR, 0x08), 0x6A86, "UNPAIR of slot 8")
    for slot in range(1, SLOTS):
        same(clients[-1].status(keycard.UNPAIR, slot), keycard.SUCCESS, "UNPAIR")
    same(refused(clients[3].open), 0x6A86, "OPEN of a client that was unpaired")
    same(client.connected(PIN)["free"], SLOTS - 1, "free slots after UNPAIR")
    same(client.status(keycard.CHANGE, 0x02, os.urandom(31)), 0x6A80, "CHANGE to a short pairing secret")


def channel_ends(wire, client):
    """RESET by reset, by power and by a client that goes: no channel, no PIN."""
    for what in (wire.reset, lambda: wire.reset(cold=True), lambda: (wire.disconnect(), wire.connect())):
        client.connected(PIN)
        same(client.status(keycard.SET_PINLESS), keycard.SUCCESS, "a command that needs the PIN")
        what()
        same(refused(client.tries), 0x6985, "the old channel after a reset")
    client.connected(PIN)
    for command in ("80F20000000000", "80F2000000000A" + 10 * "00", "80F2000000000A" + 10 * "00" + "0000", "80F20000000100" + 256 * "00", "80F200"):
        same(wire.transmit(bytes.fromhex(command)), b"\x67\x00", f"an extended length, or a short command: {command[:14]}")
    same(client.tries()[0], 3, "the channel after these")
    command = bytearray(client.seal(keycard.GET_STATUS, 0x00))
    command[10] ^= 0x01
    same(wire.transmit(bytes(command)), b"\x69\x82", "a command that was changed on its way")
    same(refused(client.tries), 0x6985, "the channel after it")


def play(wire):
    """The whole life. Gives the client and the seed of its wallet."""
    check(wire.is_t1, "the protocol is not T=1")
    answer_to_reset(wire)
    secret = os.urandom(32)
    client = first_contact(wire, secret)
    pins(wire, client)
    loads(client)
    seed = phrases(client)
    keys(wire, client, seed)
    tap_record(wire, client)
    pairings(wire, client, secret)
    channel_ends(wire, client)
    return client, seed
