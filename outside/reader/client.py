"""A Keycard client: the terminal's end of the channel, written from docs/INTEGRATION.md and the published Keycard papers.

No line of the engine, of its library or of its hosts is used: curve, AES and signatures are those of the package cryptography, hashes those of
hashlib. Lengths are in bytes.
"""
import hashlib
import os

from cryptography.exceptions import InvalidSignature
from cryptography.hazmat.primitives import hashes
from cryptography.hazmat.primitives.asymmetric import ec, utils
from cryptography.hazmat.primitives.ciphers import Cipher, algorithms, modes
from cryptography.hazmat.primitives.serialization import Encoding, PublicFormat

APPLICATION = b"StatusWalletApp"
BLOCK_BYTES = 16
CURVE_ORDER = 0xFFFFFFFFFFFFFFFFFFFFFFFFFFFFFFFEBAAEDCE6AF48A03BBFD25E8CD0364141
HARDENED = 0x80000000
SUCCESS = 0x9000

SELECT, INIT, OPEN, MUTUAL, PAIR, UNPAIR = 0xA4, 0xFE, 0x10, 0x11, 0x12, 0x13
GET_STATUS, VERIFY, CHANGE, UNBLOCK = 0xF2, 0x20, 0x21, 0x22
LOAD, DERIVE, GENERATE, REMOVE = 0xD0, 0xD1, 0xD2, 0xD3
SIGN, SET_PINLESS, EXPORT, SET_NDEF = 0xC0, 0xC1, 0xC2, 0xF3


class Refused(Exception):
    """The card answered another status word than 9000."""

    def __init__(self, status):
        super().__init__(f"{status:04X}")
        self.status = status


def sha256(*parts):
    return hashlib.sha256(b"".join(parts)).digest()


def cipher(key, iv):
    return Cipher(algorithms.AES(key), modes.CBC(iv))


def encipher(key, iv, data):
    work = cipher(key, iv).encryptor()
    return work.update(data) + work.finalize()


def decipher(key, iv, data):
    work = cipher(key, iv).decryptor()
    return work.update(data) + work.finalize()


def pad(data):
    return data + b"\x80" + bytes(-(len(data) + 1) % BLOCK_BYTES)


def unpad(data):
    content = data.rstrip(b"\x00")
    if not content.endswith(b"\x80") or len(data) - len(content) >= BLOCK_BYTES:
        raise ValueError("the padding is wrong")
    return content[:-1]


def mac(key, head, data):
    return encipher(key, bytes(BLOCK_BYTES), head + bytes(BLOCK_BYTES - len(head)) + data)[-BLOCK_BYTES:]


def apdu(cla, ins, p1, p2, data=b"", le=b""):
    """A command: Le is no byte, or one."""
    return bytes([cla, ins, p1, p2]) + (bytes([len(data)]) + data if data else b"") + le


def fields(data):
    """The fields of a template, as pairs of tag and content."""
    found = []
    while data:
        tag, length, head = data[0], data[1], 2
        if length == 0x81:
            length, head = data[2], 3
        if len(data) < head + length:
            raise ValueError("a field is cut")
        found.append((tag, data[head:head + length]))
        data = data[head + length:]
    return found


def path_bytes(path):
    """m/44'/60' as bytes, 4 a component."""
    components = [part for part in path.split("/")[1:] if part]
    return b"".join((int(part.rstrip("'")) + (HARDENED if part.endswith("'") else 0)).to_bytes(4, "big") for part in components)


def uncompressed(point):
    key = ec.EllipticCurvePublicKey.from_encoded_point(ec.SECP256K1(), bytes(point))
    return key.public_bytes(Encoding.X962, PublicFormat.UncompressedPoint)


def public_of(private_key):
    key = ec.derive_private_key(int.from_bytes(private_key, "big"), ec.SECP256K1()).public_key()
    return key.public_bytes(Encoding.X962, PublicFormat.UncompressedPoint)


def is_signed(public_key, digest, der):
    """Whether this is a signature of the 32 bytes, by the package cryptography, and with the lower s."""
    key = ec.EllipticCurvePublicKey.from_encoded_point(ec.SECP256K1(), public_key)
    try:
        key.verify(der, digest, ec.ECDSA(utils.Prehashed(hashes.SHA256())))
    except InvalidSignature:
        return False
    return utils.decode_dss_signature(der)[1] <= CURVE_ORDER // 2


class Client:
    """One client of a card. `transmit` carries a command and gives the answer's bytes."""

    def __init__(self, transmit, pairing_secret, le=b""):
        self.transmit, self.pairing_secret, self.le = transmit, pairing_secret, le
        self.card_key = self.pairing = self.session = None

    # Plain commands.

    def plain(self, cla, ins, p1, p2, data=b""):
        answer = self.transmit(apdu(cla, ins, p1, p2, data, self.le))
        status = int.from_bytes(answer[-2:], "big")
        if status != SUCCESS:
            raise Refused(status)
        return answer[:-2]

    def select(self):
        """What SELECT tells: before INIT the public key alone."""
        answer = self.plain(0x00, SELECT, 0x04, 0x00, APPLICATION)
        (tag, content), = fields(answer)
        if tag == 0x80:
            self.card_key = content
            return {"initialised": False, "public_key": content}
        if tag != 0xA4:
            raise ValueError("SELECT answers another template")
        (_, uid), (_, self.card_key), (_, version), (_, free), (_, key_uid) = fields(content)
        return {"initialised": True, "uid": uid, "public_key": self.card_key, "version": version, "free": free[0], "key_uid": key_uid}

    def agreed(self):
        """A new key pair for one command: its point, and the ECDH secret with the card."""
        own = ec.generate_private_key(ec.SECP256K1())
        card = ec.EllipticCurvePublicKey.from_encoded_point(ec.SECP256K1(), self.card_key)
        point = own.public_key().public_bytes(Encoding.X962, PublicFormat.UncompressedPoint)
        return point, own.exchange(ec.ECDH(), card)

    def init(self, pin, puk):
        point, secret = self.agreed()
        iv = os.urandom(BLOCK_BYTES)
        content = encipher(secret, iv, pad(pin + puk + self.pairing_secret))
        self.plain(0x80, INIT, 0x00, 0x00, bytes([len(point)]) + point + iv + content)

    def pair(self):
        challenge = os.urandom(32)
        first = self.plain(0x80, PAIR, 0x00, 0x00, challenge)
        if first[:32] != sha256(self.pairing_secret, challenge):
            raise ValueError("the card does not know the pairing secret")
        last = self.plain(0x80, PAIR, 0x01, 0x00, sha256(self.pairing_secret, first[32:]))
        self.pairing = last[0], sha256(self.pairing_secret, last[1:])
        return last[0]

    def open(self):
        """OPEN and MUTUAL."""
        index, pairing_key = self.pairing
        point, secret = self.agreed()
        answer = self.plain(0x80, OPEN, index, 0x00, point)
        keys = hashlib.sha512(secret + pairing_key + answer[:32]).digest()
        self.session = {"enc": keys[:32], "mac": keys[32:], "iv": answer[32:]}
        if len(self.succeed(MUTUAL, 0x00, os.urandom(32))) != 32:
            raise ValueError("MUTUAL answers another length")

    # Commands over the channel.

    def seal(self, ins, p1=0x00, data=b"", p2=0x00, cla=0x80):
        """The sealed command; the session's IV moves with it."""
        session = self.session
        content = encipher(session["enc"], session["iv"], pad(data))
        head = bytes([cla, ins, p1, p2, BLOCK_BYTES + len(content)])
        session["iv"] = mac(session["mac"], head, content)
        return head + session["iv"] + content + self.le

    def unseal(self, answer):
        """Response data and status word of a sealed answer."""
        session = self.session
        if answer[-2:] != b"\x90\x00" or len(answer) < 2 + 2 * BLOCK_BYTES:
            raise Refused(int.from_bytes(answer[-2:], "big"))
        field = answer[:-2]
        if mac(session["mac"], bytes([len(field)]), field[BLOCK_BYTES:]) != field[:BLOCK_BYTES]:
            raise ValueError("the answer's MAC is wrong")
        opened = unpad(decipher(session["enc"], session["iv"], field[BLOCK_BYTES:]))
        session["iv"] = field[:BLOCK_BYTES]
        return opened[:-2], int.from_bytes(opened[-2:], "big")

    def send(self, ins, p1=0x00, data=b"", p2=0x00):
        """Response data and status word, whatever it is. A plain answer is `Refused`."""
        return self.unseal(self.transmit(self.seal(ins, p1, data, p2)))

    def succeed(self, ins, p1=0x00, data=b"", p2=0x00):
        answer, status = self.send(ins, p1, data, p2)
        if status != SUCCESS:
            raise Refused(status)
        return answer

    def status(self, ins, p1=0x00, data=b"", p2=0x00):
        return self.send(ins, p1, data, p2)[1]

    def tries(self):
        """PIN tries, PUK tries and whether there is a key."""
        (tag, content), = fields(self.succeed(GET_STATUS))
        (_, pin), (_, puk), (_, key) = fields(content)
        return pin[0], puk[0], key[0] == 0xFF

    def path(self):
        return self.succeed(GET_STATUS, 0x01)

    def verify(self, pin):
        return self.status(VERIFY, 0x00, pin)

    def load(self, p1, data):
        return self.succeed(LOAD, p1, data)

    def derive(self, path):
        return self.succeed(DERIVE, 0x00, path_bytes(path))

    def sign(self, digest):
        """The public key that signs, and the signature in DER."""
        (tag, content), = fields(self.succeed(SIGN, 0x00, digest))
        (_, public_key), (sequence, numbers) = fields(content)
        if (tag, sequence) != (0xA0, 0x30):
            raise ValueError("SIGN answers another template")
        return public_key, bytes([0x30, len(numbers)]) + numbers

    def export(self, path, private=False, p1=0x01):
        """Public key, and private key or none."""
        (tag, content), = fields(self.succeed(EXPORT, p1, path, 0x00 if private else 0x01))
        found = dict(fields(content))
        return found[0x80], found.get(0x81)

    def words(self, p1):
        """The numbers of the words of a new recovery phrase."""
        answer = self.succeed(GENERATE, p1)
        return [int.from_bytes(answer[at:at + 2], "big") for at in range(0, len(answer), 2)]

    def connected(self, pin=None):
        """SELECT, OPEN and MUTUAL; VERIFY, where a PIN is given."""
        info = self.select()
        self.open()
        if pin is not None and self.verify(pin) != SUCCESS:
            raise ValueError("the PIN is not right")
        return info
