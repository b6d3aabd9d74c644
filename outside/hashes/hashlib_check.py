"""Usage: hashlib_check.py FILE

Reads the messages and digests that the program `hashes` writes to FILE (a named pipe will do), hashes each message with Python's hashlib,
which shares no code with this project, and compares. Lengths are in bytes; a message's length is in 8 bytes, high byte first.
Exit status: 0 where every digest is the same, and there is one at least; 1 otherwise.
"""
import hashlib
import sys

LENGTH_BYTES = 8
DIGEST_BYTES = 32


def whole(file, count):
    """The next `count` bytes of the file; ends the run where there are fewer."""
    found = file.read(count)
    if len(found) != count:
        sys.exit("hashlib: the list of messages ends too early")
    return found


def main(name):
    number = 0
    with open(name, "rb") as file:
        while head := file.read(LENGTH_BYTES):
            if len(head) != LENGTH_BYTES:
                sys.exit("hashlib: the list of messages ends too early")
            message = whole(file, int.from_bytes(head, "big"))
            if hashlib.sha256(message).digest() != whole(file, DIGEST_BYTES):
                sys.exit(f"hashlib: another digest of message {number}, {len(message)} bytes")
            number += 1
    if number == 0:
        sys.exit("hashlib: no messages")
    print(f"hashlib: {number} messages, the same digests")


if __name__ == "__main__":
    main(sys.argv[1])
