#!/usr/bin/env python3
"""Makes a classic capture of ARP, IPv4, UDP, TCP and other frames, the same at each run.

usage: make_capture.py FILE [PACKETS]        (a million packets, about 310 MB, without a number)

A pool of distinct packets is made once and repeated with rising times.
"""
import random
import struct
import sys

POOL = 5000
CONVERSATIONS = 64
LINK_ETHERNET = 1


def checksum(octets):
    """The Internet checksum (RFC 1071) of these octets."""
    if len(octets) % 2:
        octets += b"\0"
    total = sum(struct.unpack(f">{len(octets) // 2}H", octets))
    while total > 0xFFFF:
        total = (total & 0xFFFF) + (total >> 16)
    return 0xFFFF - total


def conversation(rng):
    """Addresses and ports of two hosts. The ports are those of no protocol that other readers would go on to decode."""
    source = bytes([10, 0, rng.randrange(256), rng.randrange(1, 255)])
    destination = bytes([10, 1, rng.randrange(256), rng.randrange(1, 255)])
    return source, destination, struct.pack(">HH", rng.randrange(40000, 60000), rng.randrange(40000, 60000))


def ipv4(rng, protocol, source, destination, data, fragment=0x4000, options=b""):
    """An IPv4 packet (RFC 791)."""
    header = 20 + len(options)
    front = struct.pack(">BBHHHBB", 0x40 + header // 4, 0, header + len(data), rng.randrange(65536), fragment, 64, protocol)
    addressed = source + destination + options
    return front + struct.pack(">H", checksum(front + b"\0\0" + addressed)) + addressed + data


def udp(rng, source, destination, ports, payload):
    """A UDP datagram (RFC 768); one in eight has no checksum."""
    front = ports + struct.pack(">H", 8 + len(payload))
    pseudo = source + destination + b"\0\x11" + struct.pack(">H", 8 + len(payload))
    total = 0 if rng.randrange(8) == 0 else checksum(pseudo + front + b"\0\0" + payload) or 0xFFFF
    return front + struct.pack(">H", total) + payload


def tcp(rng, source, destination, ports, payload):
    """A TCP segment (RFC 793): a connection request, or data behind a time stamp."""
    if rng.randrange(5) == 0:
        options, flags, payload = bytes.fromhex("020405b40402080a000000010000000001030307"), 0x02, b""
    else:
        options, flags = b"\1\1\x08\x0a" + rng.randbytes(8), 0x10
    offset = (20 + len(options)) // 4
    front = ports + struct.pack(">IIHH", rng.randrange(2**32), rng.randrange(2**32), offset << 12 | flags, 8192)
    pseudo = source + destination + b"\0\x06" + struct.pack(">H", 20 + len(options) + len(payload))
    behind = b"\0\0" + options + payload
    return front + struct.pack(">H", checksum(pseudo + front + b"\0\0" + behind)) + behind


def frame(rng, conversations):
    hardware = b"\2" + rng.randbytes(5) + b"\2" + rng.randbytes(5)
    kind = rng.randrange(20)
    source, destination, ports = rng.choice(conversations)
    payload = rng.randbytes(rng.choice([0, 1, 12, 64, 200, 512, 1200]))
    if kind == 0:
        arp = struct.pack(">HHBBH", 1, 0x0800, 6, 4, 1) + hardware[6:] + source + bytes(6) + destination
        return hardware + b"\x08\x06" + arp + bytes(18)
    if kind == 1:
        return hardware + b"\x86\xdd" + payload
    if kind == 2:
        whole = ipv4(rng, 17, source, destination, payload, fragment=0x2000)
    elif kind == 3:
        whole = ipv4(rng, 1, source, destination, payload, options=b"\x94\x04\0\0")
    elif kind < 9:
        whole = ipv4(rng, 17, source, destination, udp(rng, source, destination, ports, payload))
    else:
        whole = ipv4(rng, 6, source, destination, tcp(rng, source, destination, ports, payload))
    return hardware + b"\x08\0" + whole + bytes(max(0, 46 - len(whole)))


def main():
    if len(sys.argv) not in (2, 3):
        sys.exit(__doc__)
    count = int(sys.argv[2]) if len(sys.argv) == 3 else 1_000_000
    rng = random.Random(1)
    conversations = [conversation(rng) for _ in range(CONVERSATIONS)]
    pool = [frame(rng, conversations) for _ in range(min(POOL, count))]
    with open(sys.argv[1], "wb", buffering=1 << 20) as out:
        out.write(struct.pack("<IHHIIII", 0xA1B2C3D4, 2, 4, 0, 0, 262144, LINK_ETHERNET))
        for number in range(count):
            octets = pool[number % len(pool)]
            out.write(struct.pack("<IIII", number // 1000, number % 1000 * 1000, len(octets), len(octets)) + octets)


main()
