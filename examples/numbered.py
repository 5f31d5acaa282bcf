#!/usr/bin/env python3
"""Makes in.pcap in the current folder: records numbered from 1, each of one length, and each byte is the record's number
modulo 256.

The words are how many records, and the length of each.
"""

import struct
import sys


def main():
    count, length = int(sys.argv[1]), int(sys.argv[2])
    with open("in.pcap", "wb") as out:
        out.write(struct.pack("<IHHIIII", 0xA1B2C3D4, 2, 4, 0, 0, 65535, 1))
        for number in range(1, count + 1):
            out.write(struct.pack("<IIII", number, 0, length, length) + bytes([number % 256]) * length)


if __name__ == "__main__":
    main()
