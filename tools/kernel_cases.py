"""The cases of docs/KERNEL.md: single packets that a kernel doesn't always treat as the file says of their flow.

The table there is what the kernel is held to. This reads it, and makes the packets that it names.
"""
import re
from dataclasses import dataclass
from ipaddress import IPv4Address
from pathlib import Path

import packets
from gateway import Cannot

PAGE = Path(__file__).resolve().parent.parent / "docs/KERNEL.md"
PROTOCOLS = {"tcp": packets.TCP, "udp": packets.UDP}
BODY, CUT = 40, 24  # bytes behind a packet's head, and where it is cut where both fragments are sent
MARKER_RULE = f"-s {packets.dotted(packets.MARKER[1])}/32 -d {packets.dotted(packets.MARKER[3])}/32 -j ACCEPT"
TRACKING = "*nat\n:PREROUTING ACCEPT [0:0]\n:POSTROUTING ACCEPT [0:0]\n-A POSTROUTING -s 203.0.113.0/24 -j MASQUERADE\nCOMMIT\n"


@dataclass
class Case:
    """A line of the table, with its number: what is sent, the default and the rule, what the file says of the flow, and what comes of it by flavour."""

    number: int
    name: str
    default: str
    rule: str
    decision: str
    comes: dict

    @property
    def tracked(self):
        return self.name.endswith(", tracked")

    @property
    def listing(self):
        """The rule behind one that lets a marker through, and no word from the gateway itself; before them, a table that has connections tracked."""
        rules = [MARKER_RULE] + ([] if self.rule == "none" else [self.rule])
        lines = ["*filter", f":FORWARD {self.default} [0:0]", ":OUTPUT DROP [0:0]", *(f"-A FORWARD {rule}" for rule in rules), "COMMIT"]
        return (TRACKING if self.tracked else "") + "".join(line + "\n" for line in lines)

    @property
    def flow(self):
        """The flow of the packet, or of the one that it is a part of."""
        ends = {"source": "10.0.0.1", "destination": "10.0.0.2"}
        ends.update(re.findall(r"(source|destination) ([0-9.]+)", self.name))
        source, destination = (int(IPv4Address(word)) for word in ends.values())
        return PROTOCOLS[self.name.split(",")[0]], source, 1000, destination, 80

    @property
    def body(self):
        head = 20 if self.flow[0] == packets.TCP else 8
        return packets.body_of(self.flow, bytes(range(BODY - head)), 2)

    @property
    def sent(self):
        """The packets that the name means."""
        part = re.search(r"(cut|fragment|both)(?: from (\d+))?(?: to (\d+))?", self.name)
        if part is None:
            return [packets.framed(self.flow, self.body, lives=1 if self.name.endswith(", one life") else packets.LIVES)]
        if part[1] == "cut":
            return [packets.framed(self.flow, self.body[:int(part[3])])]
        ends = [(0, CUT), (CUT, BODY)] if part[1] == "both" else [(int(part[2]), int(part[3]))]
        return [packets.framed(self.flow, self.body[a:b], a // 8 | (packets.MORE if b < BODY else 0), number=self.number) for a, b in ends]


def cases():
    """The lines of the table; those with tracking last, since it stays on."""
    taken, names = [], []
    for line in PAGE.read_text().splitlines():
        cells = [cell.strip().strip("`") for cell in line.split("|")[1:-1]]
        if cells[:4] == ["Sent", "Default", "Rule", "File"]:
            names = cells[4:]
        elif len(cells) == 4 + len(names) and cells[1] in ("ACCEPT", "DROP"):
            taken.append(Case(len(taken) + 1, *cells[:4], dict(zip(names, cells[4:]))))
    if not taken:
        raise Cannot(f"{PAGE} has no cases")
    return sorted(taken, key=lambda case: case.tracked)
