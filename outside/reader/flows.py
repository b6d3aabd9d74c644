"""The requests of the Keycard usage paper, each with a connection of its own, and its six flows. A connection is made in the order of the client
notes: exclusive, SELECT, then pairing for a card that is not known or the channel for one that is, then the PIN. Lengths are in bytes."""
import hashlib
import os
import secrets

from mnemonic import Mnemonic

import client as keycard
from checks import check, same
from client import Client, Refused, is_signed, path_bytes, sha256, uncompressed
from life import CHAT, SLOTS, WALLET, wallet_key

ROUNDS = 50_000
PATHS = {"whisper": CHAT + "/0'/0", "encryption": CHAT + "/1'/0", "wallet-root": "m/44'/60'/0'/0", "wallet": WALLET}


def digits(count):
    return "".join(secrets.choice("0123456789") for _ in range(count))


def pairing_secret(password):
    """The clients' way from a password to 32 bytes."""
    return hashlib.pbkdf2_hmac("sha256", password.encode(), b"Keycard Pairing Password Salt", ROUNDS)


class Application:
    """An application on one device. A pairing is text that the application keeps: key and slot."""

    def __init__(self, wire):
        self.wire = wire

    def connected(self, pairing=None, pin=None, secret=bytes(32)):
        self.wire.disconnect()
        self.wire.connect()
        client = Client(self.wire.transmit, secret, le=b"\x00")
        info = client.select()
        if pairing is not None:
            key, slot = pairing.split("/")
            client.pairing = int(slot), bytes.fromhex(key)
            client.open()
        if pin is not None and client.verify(pin.encode()) != keycard.SUCCESS:
            raise ValueError("the PIN is not right")
        return client, info

    def init_keycard(self, pin):
        made = {"password": secrets.token_urlsafe(12), "puk": digits(12), "pin": pin}
        client, info = self.connected(secret=pairing_secret(made["password"]))
        check(not info["initialised"], "the card is new")
        client.init(pin.encode(), made["puk"].encode())
        return made

    def application_info(self, pairing=None):
        _, info = self.connected(pairing)
        if not info["initialised"]:
            return {"initialized?": False}
        return {"initialized?": True, "free-pairing-slots": info["free"], "app-version": "{}.{}".format(*info["version"]),
                "instance-uid": info["uid"], "key-uid": info["key_uid"], "has-master-key?": bool(info["key_uid"]), "paired?": pairing is not None}

    def pair(self, password):
        client, _ = self.connected(secret=pairing_secret(password))
        slot = client.pair()
        return f"{client.pairing[1].hex()}/{slot}"

    def mnemonic(self, pairing):
        """Twelve words of the card's own entropy; for this no PIN is asked."""
        client, _ = self.connected(pairing)
        check(not client.tries()[2], "the card has no key yet")
        words = Mnemonic("english")
        return " ".join(words.wordlist[number] for number in client.words(0x04))

    def generate_and_load_keys(self, mnemonic, pairing, pin):
        client, _ = self.connected(pairing, pin)
        client.load(0x03, Mnemonic("english").to_seed(mnemonic, passphrase=""))
        return self.keys_of(client)

    def get_keys(self, pairing, pin):
        client, _ = self.connected(pairing, pin)
        return self.keys_of(client)

    def keys_of(self, client):
        found = {name + "-public-key": client.export(path_bytes(path))[0] for name, path in PATHS.items()}
        found["whisper-private-key"] = client.export(path_bytes(PATHS["whisper"]), private=True)[1]
        found["public-key"] = client.export(b"")[0]
        found["key-uid"] = client.select()["key_uid"]
        return found

    def sign(self, digest, pairing, pin, path):
        client, _ = self.connected(pairing, pin)
        client.derive(path)
        return client.sign(digest)

    def export_key(self, pairing, pin, path):
        client, _ = self.connected(pairing, pin)
        client.derive(path)
        return client.export(b"", p1=0x00)[0]

    def verify_pin(self, pairing, pin):
        """The paper's digit: the tries that are left, 3 where the PIN is valid."""
        client, _ = self.connected(pairing)
        status = client.verify(pin.encode())
        return 3 if status == keycard.SUCCESS else status & 0x0F

    def change_pin(self, new_pin, current_pin, pairing):
        try:
            client, _ = self.connected(pairing, current_pin)
        except ValueError:
            return False
        return client.status(keycard.CHANGE, 0x00, new_pin.encode()) == keycard.SUCCESS

    def unblock_pin(self, puk, new_pin, pairing):
        client, _ = self.connected(pairing)
        return client.status(keycard.UNBLOCK, 0x00, puk.encode() + new_pin.encode()) == keycard.SUCCESS


def signed(application, pairing, pin, seed):
    digest = os.urandom(32)
    public_key, der = application.sign(digest, pairing, pin, WALLET)
    same(public_key, uncompressed(wallet_key(seed, WALLET).PublicKey()), "the key of a transaction")
    check(is_signed(public_key, digest, der), "the signature of a transaction is wrong, or has the higher s")


def play(wire):
    """The six flows, on a new card."""
    application = Application(wire)
    # 1: a new user.
    same(application.application_info(), {"initialized?": False}, "the information of a new card")
    card = application.init_keycard(digits(6))
    pairing = application.pair(card["password"])
    info = application.application_info(pairing)
    same((info["initialized?"], info["free-pairing-slots"], info["app-version"], info["has-master-key?"]), (True, SLOTS - 1, "2.0", False),
         "the information of a card without a key")
    phrase = application.mnemonic(pairing)
    seed = Mnemonic("english").to_seed(phrase, passphrase="")
    keys = application.generate_and_load_keys(phrase, pairing, card["pin"])
    for name, path in PATHS.items():
        same(keys[name + "-public-key"], uncompressed(wallet_key(seed, path).PublicKey()), f"the public key {name}")
    same(keys["whisper-private-key"], wallet_key(seed, PATHS["whisper"]).PrivateKey(), "the private key whisper")
    same(keys["key-uid"], sha256(keys["public-key"]), "the key's UID")
    same(application.get_keys(pairing, card["pin"]), keys, "the keys that are fetched again")
    same(application.application_info(pairing)["key-uid"], keys["key-uid"], "the key's UID in the information")
    signed(application, pairing, card["pin"], seed)
    # 2 and 3: an existing user, on this device and on a new one.
    for _ in range(2):
        another = application.pair(card["password"])
        signed(application, another, card["pin"], seed)
    try:
        application.pair("not the password")
        check(False, "a client pairs with another password")
    except (ValueError, Refused):
        pass
    same(application.export_key(pairing, card["pin"], "m/0/1"), uncompressed(wallet_key(seed, "m/0/1").PublicKey()), "the key of a path")
    # 4 and 5: the PIN is verified and changed.
    wrong, new = digits(6), digits(6)
    while wrong in (card["pin"], new) or new == card["pin"]:
        wrong, new = digits(6), digits(6)
    same(application.verify_pin(pairing, card["pin"]), 3, "the PIN's status")
    check(not application.change_pin(new, wrong, pairing), "the PIN is changed without the current one")
    check(application.change_pin(new, card["pin"], pairing), "the PIN is not changed")
    same(application.verify_pin(pairing, new), 3, "the new PIN's status")
    # 6: the card is blocked and unblocked.
    same([application.verify_pin(pairing, wrong) for _ in range(3)], [2, 1, 0], "tries after wrong PINs, each over a connection of its own")
    check(not application.unblock_pin(digits(11) + "x", card["pin"], pairing), "a wrong PUK unblocks")
    check(application.unblock_pin(card["puk"], card["pin"], pairing), "the PUK does not unblock")
    signed(application, pairing, card["pin"], seed)
