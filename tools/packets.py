"""IPv4 packets of flows. A flow is five numbers: protocol, source, its port, destination, its port; for protocol 1 the ports are type and code."""
import struct
from ipaddress import IPv4Address

ICMP, TCP, UDP = 1, 6, 17
MARKER = (UDP, int(IPv4Address("198.51.100.1")), 7, int(IPv4Address("198.51.100.2")), 7)  # a flow of packets that only tell that others have passed
LIVES = 64
MORE = 0x2000  # the mark of a fragment that isn't the last


def dotted(address):
    return str(IPv4Address(address))


def checksum(data):
    """The checksum of IP, TCP, UDP and ICMP over these bytes."""
    data += b"\0" * (len(data) % 2)
    summed = sum(struct.unpack(f"!{len(data) // 2}H", data))
    while summed >> 16:
        summed = (summed & 0xFFFF) + (summed >> 16)
    return ~summed & 0xFFFF


def framed(flow, body, fragment=0, lives=LIVES, number=1):
    """A body behind the head of a packet. `fragment` is where it stands in its packet, by eight bytes, and the mark of more to come; fragments of one
    packet have one number."""
    head = struct.pack("!BBHHHBBHII", 0x45, 0, 20 + len(body), number, fragment, lives, flow[0], 0, flow[1], flow[3])
    return head[:10] + struct.pack("!H", checksum(head)) + head[12:] + body


def body_of(flow, tail, flags):
    """What a packet of the flow has behind its head: that of its protocol with a right checksum, and the tail. Where a protocol has no ports, the
    flow's stand in the first four bytes all the same."""
    protocol, source, sport, destination, dport = flow
    made, at = struct.pack("!HH", sport, dport) + bytes(16) + tail, None
    if protocol == TCP:
        made, at = struct.pack("!HHIIBBHHH", sport, dport, 1, 1, 0x50, flags, 1024, 0, 0) + tail, 16
    elif protocol == UDP:
        made, at = struct.pack("!HHHH", sport, dport, 8 + len(tail), 0) + tail, 6
    elif protocol == ICMP:
        made, at = struct.pack("!BBHI", sport, dport, 0, 1) + tail, 2
    if at is None:
        return made
    over = b"" if protocol == ICMP else struct.pack("!IIHH", source, destination, protocol, len(made))
    return made[:at] + struct.pack("!H", checksum(over + made) or 0xFFFF) + made[at + 2:]


def packet(flow, tail, flags=2, lives=LIVES):
    return framed(flow, body_of(flow, tail, flags), lives=lives)


def sent_on(given):
    """A packet as a gateway sends it on: it has one life less."""
    head = given[:8] + bytes([given[8] - 1]) + given[9:10] + b"\0\0" + given[12:20]
    return head[:10] + struct.pack("!H", checksum(head)) + head[12:] + given[20:]
