"""A reader of NFC tags: the NDEF file of a Type 4 tag, by the NFC Forum's commands. Lengths are in bytes."""
from client import Refused, SUCCESS, apdu

APPLICATION = bytes.fromhex("D2760000850101")
CAPABILITIES_FILE = b"\xE1\x03"


def done(transmit, command):
    answer = transmit(command)
    status = int.from_bytes(answer[-2:], "big")
    if status != SUCCESS:
        raise Refused(status)
    return answer[:-2]


def select_file(transmit, number):
    done(transmit, apdu(0x00, 0xA4, 0x00, 0x0C, number))


def read(transmit, offset, count):
    return done(transmit, apdu(0x00, 0xB0, offset >> 8, offset & 0xFF, le=bytes([count])))


def message(transmit):
    """The tag's message, as a phone reads it: the capability container says which file it is in and how much is read at a time."""
    done(transmit, apdu(0x00, 0xA4, 0x04, 0x00, APPLICATION, le=b"\x00"))
    select_file(transmit, CAPABILITIES_FILE)
    container = read(transmit, 0, 15)
    most, (tag, length), file, room = int.from_bytes(container[3:5], "big"), container[7:9], container[9:11], container[11:13]
    if (container[:2], tag, length, container[13:]) != (b"\x00\x0F", 0x04, 6, b"\x00\xFF"):
        raise ValueError("the capability container is not that of a tag that is only read")
    select_file(transmit, file)
    count = int.from_bytes(read(transmit, 0, 2), "big")
    if count + 2 > int.from_bytes(room, "big"):
        raise ValueError("the message has no room in the file")
    content = b""
    while len(content) < count:
        content += read(transmit, 2 + len(content), min(most, count - len(content)))
    return content
