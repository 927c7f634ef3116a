"""Two hosts and a gateway between them, each in a network namespace of its own.

The namespaces have no names, and no link leads out of them. Only this process holds them, so they end with it, however it ends, and two runs never
meet. No link has an address: a host sends and takes whole packets at its end, and the gateway sends on whatever comes, as far as its filter lets it.
"""
import ctypes
import os
import socket
import subprocess
import time
from pathlib import Path

import packets

LIBC = ctypes.CDLL(None, use_errno=True)
NEW_NETWORK, NEW_MOUNTS = 0x40000000, 0x00020000  # CLONE_NEWNET, CLONE_NEWNS
BIND, PRIVATE = 0x1000, 0x44000  # MS_BIND; MS_REC and MS_PRIVATE
OWN = "/proc/self/ns/net"
NAMES = "/etc/protocols"
IPV4 = 0x0800
NEAR, FAR = "02:00:00:00:00:01", "02:00:00:00:00:02"  # the gateway's end towards the sender, and the taker's end
HOP = "192.0.2.2"  # how the gateway's one route calls the taker
PATIENCE = 20  # seconds after which what hasn't come is missing


class Cannot(Exception):
    """What is needed can't be had here."""


def call(name, *arguments):
    """A call of the system."""
    if getattr(LIBC, name)(*arguments) != 0:
        raise Cannot(f"{name}: {os.strerror(ctypes.get_errno())}")


def hide_names():
    """Hides the names of protocols from this process and those that it starts, so that iptables-save writes numbers."""
    if os.path.exists(NAMES):
        call("unshare", NEW_MOUNTS)
        call("mount", b"none", b"/", None, PRIVATE, None)
        call("mount", b"/dev/null", NAMES.encode(), None, BIND, None)


class Namespace:
    """A network namespace. Inside `with` this process, and what it starts, is in it."""

    def __init__(self):
        home = os.open(OWN, os.O_RDONLY)
        call("unshare", NEW_NETWORK)
        self.held = os.open(OWN, os.O_RDONLY)
        call("setns", home, NEW_NETWORK)
        os.close(home)
        self.path = f"/proc/{os.getpid()}/fd/{self.held}"
        self.home = None

    def __enter__(self):
        self.home = os.open(OWN, os.O_RDONLY)
        call("setns", self.held, NEW_NETWORK)

    def __exit__(self, *_):
        call("setns", self.home, NEW_NETWORK)
        os.close(self.home)

    def run(self, *words, given=""):
        """What a command prints in here."""
        try:
            with self:
                done = subprocess.run(words, input=given, capture_output=True, text=True, check=False)
        except FileNotFoundError:
            raise Cannot(f"there is no command {words[0]} on the path") from None
        if done.returncode:
            raise Cannot(f"{' '.join(words)} fails: {done.stderr.strip()}")
        return done.stdout

    def socket(self, link, kind):
        """A socket for whole packets at the end of a link."""
        with self:
            made = socket.socket(socket.AF_PACKET, socket.SOCK_DGRAM, socket.htons(kind))
            made.bind((link, kind))
        return made

    def close(self):
        os.close(self.held)


class Gateway:
    """The three, as soon as a packet comes through."""

    def __init__(self):
        # one processor, so that packets stay in their order
        os.sched_setaffinity(0, {min(os.sched_getaffinity(0))})
        self.sender, self.gateway, self.taker = Namespace(), Namespace(), Namespace()
        try:
            self.gateway.run("ip", "link", "set", "lo", "up")
            self.link(self.sender, "sender", "near", "address", NEAR)
            self.link(self.taker, "taker", "far")
            self.taker.run("ip", "link", "set", "taker", "address", FAR)
            self.send_on()
            self.out, self.into = self.sender.socket("sender", 0), self.taker.socket("taker", IPV4)
        except OSError as why:
            raise Cannot(f"no gateway: {why}") from None
        self.into.setblocking(False)
        self.wait_for_links()

    def link(self, host, name, end, *extra):
        """A link from a host to the gateway's end of it."""
        host.run("ip", "link", "add", name, "type", "veth", "peer", "name", end, *extra, "netns", self.gateway.path)
        host.run("ip", "link", "set", name, "up")
        self.gateway.run("ip", "link", "set", end, "up")

    def send_on(self):
        """Whatever comes goes on to the taker, whatever source it has."""
        with self.gateway:
            settings = Path("/proc/sys/net/ipv4")
            for name, value in (("ip_forward", 1), ("conf/all/rp_filter", 0), ("conf/near/rp_filter", 0)):
                (settings / name).write_text(str(value))
        self.gateway.run("ip", "route", "add", "default", "via", HOP, "dev", "far", "onlink")
        self.gateway.run("ip", "neigh", "add", HOP, "lladdr", FAR, "dev", "far", "nud", "permanent")

    def wait_for_links(self):
        """Sends until one packet has come through; what comes late is taken too."""
        limit = time.monotonic() + PATIENCE
        while not self.arrived():
            if time.monotonic() > limit:
                raise Cannot("no packet comes through the namespaces")
            try:
                self.send([packets.packet(packets.MARKER, b"first")])
            except OSError:
                pass  # a link isn't up yet
            time.sleep(0.05)
        time.sleep(0.2)
        self.arrived()

    def send(self, given):
        hardware = bytes.fromhex(NEAR.replace(":", ""))
        for packet in given:
            self.out.sendto(packet, ("sender", IPV4, 0, 0, hardware))

    def arrived(self):
        """The packets that have arrived since the last call, as the gateway sent them on."""
        taken = []
        try:
            while True:
                taken.append(self.into.recv(65536))
        except BlockingIOError:
            return taken

    def close(self):
        self.out.close()
        self.into.close()
        for namespace in (self.sender, self.gateway, self.taker):
            namespace.close()
