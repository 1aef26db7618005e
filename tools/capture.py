"""Packets of a capture file: the classic format of libpcap, both byte orders, times in micro- or nanoseconds (which aren't read)."""

import struct

from .running import Wrong

# The first four bytes: the byte order of all numbers in the file.
ORDERS = {b"\xd4\xc3\xb2\xa1": "<", b"\x4d\x3c\xb2\xa1": "<", b"\xa1\xb2\xc3\xd4": ">", b"\xa1\xb2\x3c\x4d": ">"}
NEXT_GENERATION = b"\x0a\x0d\x0d\x0a"
FILE_HEADER, PACKET_HEADER = 24, 16


def packet(name: str, path: str, data: bytes, number: int) -> tuple[bytes, int]:
    """The bytes of a packet, counted from 1, and how many it had on the wire."""
    if data[:4] == NEXT_GENERATION:
        raise Wrong("%s: the file '%s' is a capture of the pcapng format: `editcap -F pcap IN OUT` writes it as pcap" % (name, path))
    if data[:4] not in ORDERS or len(data) < FILE_HEADER:
        raise Wrong("%s: the file '%s' is no capture file (pcap)" % (name, path))
    at, count = FILE_HEADER, 0
    while at < len(data):
        count += 1
        if at + PACKET_HEADER > len(data):
            raise Wrong("%s: the file '%s' ends within the head of packet %d" % (name, path, count))
        kept, whole = struct.unpack_from(ORDERS[data[:4]] + "II", data, at + 8)
        at += PACKET_HEADER
        if at + kept > len(data):
            raise Wrong("%s: the file '%s' ends within packet %d, which is to have %d bytes" % (name, path, count, kept))
        if count == number:
            return data[at : at + kept], whole
        at += kept
    raise Wrong("%s: the file '%s' has %d packets, and no packet %d" % (name, path, count, number))
