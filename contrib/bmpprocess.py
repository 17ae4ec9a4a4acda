"""What this machine's system tells of the station at the other end of a connection, where it runs here and as the user who
asks. It is no part of what is proved."""
import ipaddress
import os
import re
import struct
import subprocess

PROGRAM = "bmpstation"
PLACES, CLIENTS_PORT = 16, 11120  # of a station that isn't told others
WITHOUT_PORTS = ("--feeds", "--askers", "--feed-port", "--ask-port", "--rounds")  # all of them: each place has a port of its own
SECONDS = 5


def end_of(text):
    """An address and a port as /proc/net/tcp has them, in words of the machine's order; an IPv4 address in IPv6 is itself."""
    words, _, port = text.partition(":")
    data = b"".join(struct.pack("=I", int(words[at:at + 8], 16)) for at in range(0, len(words), 8))
    address = ipaddress.ip_address(data)
    return getattr(address, "ipv4_mapped", None) or address, int(port, 16)


def sockets():
    """The TCP sockets of this machine: the end here, the end there, and the inode."""
    for name in ("tcp", "tcp6"):
        try:
            with open(f"/proc/net/{name}", encoding="ascii") as lines:
                next(lines)
                for line in lines:
                    words = line.split()
                    yield words[1], words[2], words[9]
        except FileNotFoundError:
            pass


def inodes_of(pid):
    """The inodes of the sockets that a process has open."""
    found = set()
    for name in os.listdir(f"/proc/{pid}/fd"):
        try:
            target = os.readlink(f"/proc/{pid}/fd/{name}")
        except FileNotFoundError:
            continue
        if target.startswith("socket:["):
            found.add(target[8:-1])
    return found


def read(pid, name):
    with open(f"/proc/{pid}/{name}", encoding="utf-8", errors="replace") as file:
        return file.read()


def options_of(words):
    """The options of a station by their names, from the words of its command line."""
    found, words = {}, iter(words)
    for word in words:
        name, equals, value = word.partition("=")
        if name.startswith("--") and name != "--lenient":
            found[name] = value if equals else next(words, "")
    return found


class Process:
    """The process of the station, as long as it is the same one."""

    def __init__(self):
        self.known = None
        self.version = None

    def find(self, link):
        """The process at the other end of a connection, and the sockets in it, or nothing where it isn't to be known."""
        here, there = link.getsockname()[:2], link.getpeername()[:2]
        if here[0] != there[0]:
            return None
        wanted = tuple((getattr(address, "ipv4_mapped", None) or address, port)
                       for address, port in ((ipaddress.ip_address(end[0].partition("%")[0]), end[1]) for end in (there, here)))
        ports = tuple(f":{port:04X}" for _, port in wanted)
        inodes = {inode for near, far, inode in sockets()
                  if near.endswith(ports[0]) and far.endswith(ports[1]) and (end_of(near), end_of(far)) == wanted and inode != "0"}
        if not inodes:
            return None
        for pid in [*([self.known[0]] if self.known else []), *filter(str.isdigit, os.listdir("/proc"))]:
            try:
                if os.stat(f"/proc/{pid}").st_uid != os.geteuid() or read(pid, "comm").rstrip("\n") != PROGRAM:
                    continue
                held = inodes_of(pid)
                if inodes & held:
                    return pid, held
            except OSError:
                continue
        return None

    def facts(self, link):
        """The station's resident memory in bytes, its version, and its clients' places that are used and free: nothing where
        it is on another machine or of another user."""
        try:
            found = self.find(link)
            if found is None:
                return None
            pid, held = found
            memory = int(read(pid, "statm").split()[1]) * os.sysconf("SC_PAGE_SIZE")
            known = pid, read(pid, "stat").rpartition(")")[2].split()[19]
            if known != self.known:
                done = subprocess.run([f"/proc/{pid}/exe", "--version"], stdin=subprocess.DEVNULL, capture_output=True, timeout=SECONDS)
                self.version = re.fullmatch(rf"{PROGRAM} (\S+)\n", done.stdout.decode("utf-8", "replace"))
                self.known = known
            options = options_of(read(pid, "cmdline").split("\0")[2:-1])
            places, first = int(options.get("--askers", PLACES)), int(options.get("--ask-port", CLIENTS_PORT))
            each = options.get("--ports", "each" if all(name in options for name in WITHOUT_PORTS) else "shared") == "each"
            ports = {f"{port:04X}" for port in range(first, first + (places if each else 1))}
            # A listening socket has no end there: its port is 0.
            used = sum(near.rpartition(":")[2] in ports and not far.endswith(":0000") and inode in held for near, far, inode in sockets())
            return memory, self.version[1] if self.version else None, used, max(0, places - used)
        except (OSError, ValueError, IndexError, subprocess.SubprocessError):
            return None
