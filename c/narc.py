"""narc from Python: `cc -shared -o libnarc.so -Wl,--whole-archive libnarc_c.a -Wl,--no-whole-archive` makes the library."""
import ctypes
import sys

U8, U16, U32, SIZE = ctypes.c_uint8, ctypes.c_uint16, ctypes.c_uint32, ctypes.c_size_t


class Span(ctypes.Structure):
    _fields_ = [("at", SIZE), ("len", SIZE)]

    def of(self, octets):
        return octets[self.at:self.at + self.len]


class Arp(ctypes.Structure):
    _fields_ = [("op", U16), ("sender_mac", U8 * 6), ("sender_ip", U8 * 4), ("target_mac", U8 * 6), ("target_ip", U8 * 4)]


class Ipv4(ctypes.Structure):
    _fields_ = [("tos", U8), ("ttl", U8), ("protocol", U8), ("df", ctypes.c_bool), ("mf", ctypes.c_bool), ("id", U16),
                ("offset", U16), ("src", U8 * 4), ("dst", U8 * 4), ("options", Span)]


class Udp(ctypes.Structure):
    _fields_ = [("sport", U16), ("dport", U16)]


class Tcp(ctypes.Structure):
    _fields_ = [("sport", U16), ("dport", U16), ("seq", U32), ("ack", U32), ("window", U16), ("urgent", U16),
                ("reserved", U8), ("flags", U8), ("options", Span)]


class Packet(ctypes.Structure):
    _fields_ = [("body", U32), ("dst", U8 * 6), ("src", U8 * 6), ("ether_type", U16), ("arp", Arp), ("ip", Ipv4),
                ("udp", Udp), ("tcp", Tcp), ("payload", Span)]


EDITS = {"eth_dst": U8 * 6, "eth_src": U8 * 6, "arp_op": U16, "arp_sha": U8 * 6, "arp_spa": U8 * 4, "arp_tha": U8 * 6,
         "arp_tpa": U8 * 4, "ip_tos": U8, "ip_id": U16, "ip_df": ctypes.c_bool, "ip_ttl": U8, "ip_src": U8 * 4, "ip_dst": U8 * 4,
         "udp_sport": U16, "udp_dport": U16, "tcp_sport": U16, "tcp_dport": U16, "tcp_seq": U32, "tcp_ack": U32,
         "tcp_reserved": U8, "tcp_flags": U8, "tcp_window": U16, "tcp_urgent": U16}


class Edits(ctypes.Structure):
    _fields_ = [("assigned", U32), *EDITS.items()]

    def __init__(self, **values):
        bits = {name: 1 << bit for bit, name in enumerate(EDITS)}
        super().__init__(sum(bits[name] for name in values))
        for name, value in values.items():
            setattr(self, name, EDITS[name](*value) if isinstance(value, bytes) else value)


class Line(ctypes.Structure):
    _fields_ = [("len", SIZE), ("octets", U8 * 524304)]


class Refused(Exception):
    def __init__(self, field, at):
        super().__init__(f"{field} {at}")
        self.field, self.at = field, at


class Narc:
    def __init__(self, path):
        self.lib = ctypes.CDLL(path)

    def field_name(self, number):
        room, written = (U8 * 20)(), SIZE()
        if self.lib.narc_field_name(U32(number), room, SIZE(20), ctypes.byref(written)) != 0:
            return str(number)
        return bytes(room[:written.value]).decode()

    def decode(self, frame):
        packet, at = Packet(), ctypes.c_uint64()
        answer = self.lib.narc_decode(frame, SIZE(len(frame)), ctypes.byref(packet), ctypes.byref(at))
        if answer != 0:
            raise Refused(self.field_name(answer), at.value)
        return packet

    def encode(self, packet, octets):
        room, written = (U8 * 262144)(), SIZE()
        if self.lib.narc_encode(ctypes.byref(packet), octets, SIZE(len(octets)), room, SIZE(262144), ctypes.byref(written)) != 0:
            raise ValueError("no frame has this packet")
        return bytes(room[:written.value])

    def patch(self, frame, **values):
        room, at = (U8 * len(frame))(*frame), ctypes.c_uint64()
        answer = self.lib.narc_patch(ctypes.byref(Edits(**values)), room, SIZE(len(frame)), ctypes.byref(at))
        if answer != 0:
            raise Refused(self.field_name(answer), at.value)
        return bytes(room)

    def text(self, packet, octets):
        line = Line()
        if self.lib.narc_text(ctypes.byref(packet), octets, SIZE(len(octets)), ctypes.byref(line)) != 0:
            raise ValueError("no frame has this packet")
        return bytes(line.octets[:line.len]).decode()


if __name__ == "__main__":
    narc = Narc(sys.argv[1])
    frame = open(sys.argv[2], "rb").read()
    try:
        print("ok", narc.text(narc.decode(frame), frame))
    except Refused as refusal:
        print("refused", refusal)
        sys.exit(1)
