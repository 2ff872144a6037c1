#!/usr/bin/env python3
"""Makes the sample captures and the sample journal: python3 samples/capture.py

store.pcap has everything that the command tells apart. store.pcapng has three of its frames as four kinds of interface
capture them, in two sections of different byte order. store.journal is what a power cut left of the coordinator's journal.

The frames are put together field by field from the Zigbee, IEEE 802.15.4 and pcapng formats and sealed with AESCCM of the
Python package cryptography; nothing comes from the codec. The keys are those in store.keys, the first of them the one in
store.key. Wireshark, given them, opens the same frames.
"""
import pathlib
import struct

from cryptography.hazmat.primitives.ciphers.aead import AESCCM

FOLDER = pathlib.Path(__file__).parent
KEY = bytes.fromhex((FOLDER / "store.key").read_text())
OTHER_KEY = bytes(range(16))
PAN, OTHER_PAN = 0x1A62, 0x2B73
START = 1_795_000_000  # seconds; one record a second

# The link types of IEEE 802.15.4: with FCS, behind a PHY header, without FCS, behind a TAP header.
WITH_FCS, WITH_PHY, WITHOUT_FCS, TAP = 195, 215, 230, 283

# The devices: short address, and long address as on the label. The neighbour is of another network.
COORDINATOR = (0x0000, "00124B001CA10001")
ROUTER = (0x3F21, "00124B001CA10002")
PROBE = (0x7A10, "00124B001CA1B2C3")
DEEP_PROBE = (0xD105, "00124B001CA1B2C9")
NEIGHBOUR = (0x9C44, "00124B00AAAA0044")
ALL_ROUTERS = 0xFFFC

DATA, COMMAND, RESERVED = 0, 1, 2
SECURITY, SOURCE_ROUTE, SOURCE_IEEE = 1 << 9, 1 << 10, 1 << 12


def wire(label):
    return bytes.fromhex(label)[::-1]


def header(kind, bits, destination, source, sequence, optional=b""):
    control = kind | 2 << 2 | bits
    return struct.pack("<HHHBB", control, destination, source, 30, sequence) + optional


def sealed(head, sender, counter, payload, key=KEY, key_sequence=0):
    """The frame as its sender seals it: network key, extended nonce. On each hop that is the device that passes it on."""
    ieee = wire(sender[1])
    control = 1 << 3 | 1 << 5
    auxiliary = lambda level: struct.pack("<BI", control | level, counter) + ieee + bytes([key_sequence])
    nonce = ieee + struct.pack("<I", counter) + bytes([control | 5])
    cipher = AESCCM(key, tag_length=4)
    return head + auxiliary(0) + cipher.encrypt(nonce, payload, head + auxiliary(5))


def fcs(frame):
    crc = 0
    for byte in frame:
        crc ^= byte
        for _ in range(8):
            crc = crc >> 1 ^ 0x8408 if crc & 1 else crc >> 1
    return struct.pack("<H", crc)


def with_fcs(frame):
    return frame + fcs(frame)


def mac(sequence, destination, source, nwk, pan=PAN):
    """A MAC data frame with short addresses and one PAN identifier."""
    return with_fcs(struct.pack("<HBHHH", 0x8841, sequence, pan, destination, source) + nwk)


def temperature(counter, hundredths):
    """An APS data frame to endpoint 1 with a ZCL report of the temperature measured."""
    aps = struct.pack("<BBHHBB", 0, 1, 0x0402, 0x0104, 1, counter)
    return aps + struct.pack("<BBBHBh", 0x18, counter, 0x0A, 0, 0x29, hundredths)


def acknowledgement(counter):
    """The APS acknowledgement of such a report."""
    return struct.pack("<BBHHBB", 2, 1, 0x0402, 0x0104, 1, counter)


def touchlink_scan():
    """A Touchlink scan request: an inter-PAN frame to every network, whose NWK header is frame control alone."""
    addresses = struct.pack("<HH", 0xFFFF, 0xFFFF) + struct.pack("<H", OTHER_PAN) + wire(NEIGHBOUR[1])
    aps = struct.pack("<BHH", 0x0B, 0x1000, 0xC05E)
    scan = struct.pack("<BBBIBB", 0x11, 1, 0x00, 0x12345678, 0x02, 0x33)
    return with_fcs(struct.pack("<HB", 0xC801, 40) + addresses + struct.pack("<H", 3 | 2 << 2) + aps + scan)


def green_power():
    """A switch that lives on the press of its key: protocol version 3, data, an application identifier of 0."""
    addresses = struct.pack("<HH", 0xFFFF, 0xFFFF)
    return with_fcs(struct.pack("<HB", 0x0801, 41) + addresses + struct.pack("<BIB", 0x0C, 0x01513D21, 0x22))


def six_lowpan():
    """A compressed IPv6 datagram, IPHC, with a UDP header behind it."""
    return mac(42, 0x0001, 0x0002, bytes.fromhex("7E33F0B116331633000000"), OTHER_PAN)


def damaged(frame, place):
    return frame[:place] + bytes([frame[place] ^ 1]) + frame[place + 1:]


def records():
    beacon = struct.pack("<HBHHHH", 0x8000, 9, PAN, 0, 0xCFFF, 0) + b"\0\x22\x84" + wire(COORDINATOR[1]) + b"\xff\xff\xff\0"
    yield with_fcs(beacon)
    links = struct.pack("<BBHBHB", 0x08, 2 | 1 << 5 | 1 << 6, ROUTER[0], 1 | 3 << 4, PROBE[0], 2 | 1 << 4)
    yield mac(10, 0xFFFF, 0, sealed(header(COMMAND, SECURITY, ALL_ROUTERS, 0, 21), COORDINATOR, 90210, links))
    report = header(DATA, SECURITY, 0, PROBE[0], 7)
    yield mac(11, 0, PROBE[0], sealed(report, PROBE, 74565, temperature(1, 2150)))
    yield with_fcs(b"\x02\x00\x0b")
    record = struct.pack("<BBHH", 0x05, 2, 0x52B0, ROUTER[0])
    yield mac(12, 0, ROUTER[0], sealed(header(COMMAND, SECURITY, 0, DEEP_PROBE[0], 40), ROUTER, 6998, record))
    deep = header(DATA, SECURITY | SOURCE_IEEE, 0, DEEP_PROBE[0], 41, wire(DEEP_PROBE[1]))
    yield mac(13, 0, ROUTER[0], sealed(deep, ROUTER, 6999, temperature(9, 3420)))
    route = struct.pack("<BBHH", 2, 1, 0x52B0, ROUTER[0])
    routed = header(DATA, SECURITY | SOURCE_ROUTE, DEEP_PROBE[0], 0, 22, route)
    yield mac(14, ROUTER[0], 0, sealed(routed, COORDINATOR, 90211, acknowledgement(9)))
    yield mac(15, 0, PROBE[0], damaged(sealed(header(DATA, SECURITY, 0, PROBE[0], 8), PROBE, 74566, temperature(2, 2160)), 30))
    strange = sealed(header(DATA, SECURITY, 0, NEIGHBOUR[0], 1), NEIGHBOUR, 3, temperature(1, 1990), OTHER_KEY)
    yield mac(16, 0, NEIGHBOUR[0], strange)
    yield mac(17, 0, NEIGHBOUR[0], header(DATA, 0, 0, NEIGHBOUR[0], 2) + temperature(2, 1990))
    timeout = b"\x0b\x0e\x00"
    yield mac(18, 0, PROBE[0], sealed(header(COMMAND, SECURITY, 0, PROBE[0], 9), PROBE, 74567, timeout))
    cut = sealed(header(DATA, SECURITY, 0, PROBE[0], 10), PROBE, 74568, temperature(3, 2170))[:18]
    yield mac(19, 0, PROBE[0], cut)[:-2] + b"\0\0"
    status = struct.pack("<BBH", 0x03, 0x0B, DEEP_PROBE[0])
    yield mac(20, 0, ROUTER[0], sealed(header(COMMAND, SECURITY, 0, ROUTER[0], 60), ROUTER, 7001, status))
    yield mac(21, 0, ROUTER[0], sealed(header(COMMAND, SECURITY, 0, ROUTER[0], 61), ROUTER, 7002, b"\x10\x01\x02"))
    yield mac(22, 0, NEIGHBOUR[0], header(RESERVED, 0, 0, NEIGHBOUR[0], 3))
    yield mac(23, 0, PROBE[0], sealed(header(DATA, SECURITY, 0, PROBE[0], 13), PROBE, 74571, temperature(6, 2200)))
    yield touchlink_scan()
    yield green_power()
    yield six_lowpan()
    yield mac(43, 0, PROBE[0], b"")


def pcap():
    out = struct.pack("<IHHiIII", 0xA1B2C3D4, 2, 4, 0, 0, 65535, WITH_FCS)
    for i, record in enumerate(records()):
        out += struct.pack("<IIII", START + i, 0, len(record), len(record)) + record
    return out


class Section:
    """A section of a pcapng capture, in the byte order of struct's mark."""

    def __init__(self, order):
        self.order = order
        self.out = b""
        self.block(0x0A0D0D0A, self.pack("IHHq", 0x1A2B3C4D, 1, 0, -1))

    def pack(self, form, *fields):
        return struct.pack(self.order + form, *fields)

    def block(self, kind, body):
        body += b"\0" * (-len(body) % 4)
        length = self.pack("I", len(body) + 12)
        self.out += self.pack("I", kind) + length + body + length

    def option(self, code, value):
        return self.pack("HH", code, len(value)) + value + b"\0" * (-len(value) % 4)

    def interface(self, link_type, *options):
        self.block(1, self.pack("HHI", link_type, 0, 0) + b"".join(options) + self.option(0, b""))

    def packet(self, interface, units, record):
        fields = self.pack("IIIII", interface, units >> 32, units & 0xFFFFFFFF, len(record), len(record))
        self.block(6, fields + record + b"\0" * (-len(record) % 4))


def pcapng():
    """The third, the fifth and the sixteenth record: by a PHY header and a time in nanoseconds, by a TAP header, without FCS,
    and with it; between them a block of names and one of nobody's, which are passed over."""
    third, fifth, sixteenth = (list(records())[i] for i in (2, 4, 15))
    little = Section("<")
    little.interface(WITH_PHY, little.option(9, b"\x09"))
    little.interface(TAP, little.option(9, b"\x83"), little.option(14, struct.pack("<q", START)))
    little.packet(0, START * 10**9 + 2_000_000_001, b"\0\0\0\0\xa7" + bytes([len(third)]) + third)
    little.block(4, little.pack("HH", 0, 0))
    # TAP: the FCS is said to have two bytes, and the channel is 15. An eighth of a second is the unit of time.
    tap = struct.pack("<BBH", 0, 0, 20) + struct.pack("<HHI", 0, 1, 1) + struct.pack("<HHHBB", 3, 3, 15, 0, 0)
    little.packet(1, 4 * 8 + 3, tap + fifth)
    big = Section(">")
    big.interface(WITHOUT_FCS)
    big.interface(WITH_FCS)
    big.block(0x7FFF0001, b"nobody")
    big.packet(0, (START + 15) * 10**6 + 250_000, sixteenth[:-2])
    big.packet(1, (START + 15) * 10**6 + 500_000, sixteenth)
    return little.out + big.out


def ceiling(counter):
    return struct.pack("<BI", 1, counter)


def noted(sender, counter):
    return b"\2" + wire(sender[1]) + struct.pack("<I", counter)


def journal():
    """The coordinator reserves 100 counters at a time, and had noted frames of the probe and the router. The power failed when four
    bytes of the next ceiling had been written."""
    taken = noted(PROBE, 74565) + noted(ROUTER, 6998) + noted(PROBE, 74571) + noted(ROUTER, 7002)
    return b"\3\0" + ceiling(90300) + taken + ceiling(90400)[:4]


def main():
    (FOLDER / "store.pcap").write_bytes(pcap())
    (FOLDER / "store.pcapng").write_bytes(pcapng())
    (FOLDER / "store.journal").write_bytes(journal())


main()
