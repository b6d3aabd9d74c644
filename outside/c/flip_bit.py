"""flip_bit.py OBJECT N: changes one bit in the middle of the Nth largest section of code of an ELF object of 64 bits, low byte first. With
it tools/library --target sees that its comparison finds a library that is wrong. Offsets and lengths are in bytes."""
import struct
import sys

CODE = 0x4  # SHF_EXECINSTR


def main(path, number):
    with open(path, "rb") as file:
        data = bytearray(file.read())
    sections_at = struct.unpack_from("<Q", data, 0x28)[0]
    entry_bytes, entries = struct.unpack_from("<HH", data, 0x3A)
    code = []
    for k in range(entries):
        _name, _kind, flags, _address, offset, length = struct.unpack_from("<IIQQQQ", data, sections_at + k * entry_bytes)
        if flags & CODE and length > 64:
            code.append((length, offset))
    length, offset = sorted(code, reverse=True)[number - 1]
    data[offset + length // 2 // 4 * 4 + 1] ^= 0x04
    with open(path, "wb") as file:
        file.write(data)


main(sys.argv[1], int(sys.argv[2]))
