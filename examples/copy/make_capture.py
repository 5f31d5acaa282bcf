#!/usr/bin/env python3
"""Makes in.pcap: six small frames, as tcpdump and Wireshark read them.

Ethernet frames with IPv4 inside: a name is asked for and answered over UDP, and a connection is opened over TCP.
All addresses are of the ranges kept for documentation.
"""

import struct

CLIENT, SERVER = "192.0.2.10", "198.51.100.20"
CLIENT_CARD, SERVER_CARD = "02:00:00:00:00:0a", "02:00:00:00:00:14"


def address(text):
    return bytes(int(part) for part in text.split("."))


def checksum(data):
    """The Internet checksum: the complement of the sum of 16-bit words."""
    if len(data) % 2:
        data += b"\0"
    total = sum(struct.unpack(f">{len(data) // 2}H", data))
    while total >> 16:
        total = (total & 0xFFFF) + (total >> 16)
    return ~total & 0xFFFF


def transport(protocol, source, target, head, checksum_at, payload):
    """A UDP or TCP segment with its checksum, which covers the addresses too."""
    segment = bytearray(head + payload)
    pseudo = address(source) + address(target) + struct.pack(">BBH", 0, protocol, len(segment))
    struct.pack_into(">H", segment, checksum_at, checksum(pseudo + bytes(segment)))
    return bytes(segment)


def frame(protocol, source, target, segment):
    to_server = target == SERVER
    cards = (SERVER_CARD, CLIENT_CARD) if to_server else (CLIENT_CARD, SERVER_CARD)
    ethernet = b"".join(bytes.fromhex(card.replace(":", "")) for card in cards) + b"\x08\x00"
    head = struct.pack(">BBHHHBBH4s4s", 0x45, 0, 20 + len(segment), 1, 0x4000, 64, protocol, 0,
                       address(source), address(target))
    head = head[:10] + struct.pack(">H", checksum(head)) + head[12:]
    whole = ethernet + head + segment
    return whole + b"\0" * (60 - len(whole))


def udp(source, target, from_port, to_port, payload):
    head = struct.pack(">HHHH", from_port, to_port, 8 + len(payload), 0)
    return frame(17, source, target, transport(17, source, target, head, 6, payload))


def tcp(source, target, from_port, to_port, number, answered, flags, payload=b""):
    head = struct.pack(">HHIIBBHHH", from_port, to_port, number, answered, 0x50, flags, 64240, 0, 0)
    return frame(6, source, target, transport(6, source, target, head, 16, payload))


def name_question(number, flags, answers, answer):
    labels = b"".join(bytes([len(part)]) + part for part in (b"example", b"org")) + b"\0"
    return struct.pack(">HHHHHH", number, flags, 1, answers, 0, 0) + labels + struct.pack(">HH", 1, 1) + answer


SYN, ACK, PUSH = 2, 16, 8
FRAMES = [
    udp(CLIENT, SERVER, 40000, 53, name_question(7, 0x0100, 0, b"")),
    udp(SERVER, CLIENT, 53, 40000,
        name_question(7, 0x8180, 1, struct.pack(">HHHIH4s", 0xC00C, 1, 1, 300, 4, address("203.0.113.30")))),
    tcp(CLIENT, SERVER, 40001, 80, 100, 0, SYN),
    tcp(SERVER, CLIENT, 80, 40001, 500, 101, SYN | ACK),
    tcp(CLIENT, SERVER, 40001, 80, 101, 501, ACK),
    tcp(CLIENT, SERVER, 40001, 80, 101, 501, PUSH | ACK, b"GET / HTTP/1.1\r\nHost: example.org\r\n\r\n"),
]


def main():
    with open("in.pcap", "wb") as out:
        out.write(struct.pack("<IHHIIII", 0xA1B2C3D4, 2, 4, 0, 0, 65535, 1))
        for at, data in enumerate(FRAMES):
            out.write(struct.pack("<IIII", 1_700_000_000, 1000 * at, len(data), len(data)) + data)


if __name__ == "__main__":
    main()
