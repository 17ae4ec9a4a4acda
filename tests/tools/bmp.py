"""What the tests' routers send: BMP messages (RFC 7854, RFC 8671, RFC 9069) and the BGP messages in them (RFC 4271), as bytes."""
import collections
import ipaddress
import socket
import struct

ASN = 64500  # of each peer, and of the router
ROUTER = bytes([192, 0, 2, 254])  # the router's address and BGP Identifier
LOC_RIB = 3  # the peer type (RFC 9069, section 4.1)

# The flags of a view in the Per-Peer Header (RFC 7854, section 4.2; RFC 8671, section 4).
FLAGS = {"adj-in-pre": 0x00, "adj-in-post": 0x40, "adj-out-pre": 0x10, "adj-out-post": 0x50, "loc": 0x00}


# A peer by its type, its distinguisher and its address; `add_path` says whether its routes have path identifiers (RFC 7911).
Peer = collections.namedtuple("Peer", "kind distinguisher address add_path", defaults=[False])


def message(kind, body):
    return struct.pack(">BIB", 3, 6 + len(body), kind) + body


def tlv(kind, value):
    return struct.pack(">HH", kind, len(value)) + value


def initiation(name, descr=b"test"):
    """An Initiation with sysName and sysDescr (section 4.3)."""
    return message(4, tlv(2, name) + tlv(1, descr))


def termination():
    """A Termination: the session is closed for administrative reasons (section 4.5)."""
    return message(5, tlv(1, struct.pack(">H", 0)))


def per_peer(peer, view="adj-in-pre"):
    """The Per-Peer Header (section 4.2)."""
    address = ipaddress.ip_address(peer.address)
    flags = FLAGS[view] | (0x80 if address.version == 6 else 0)
    octets = address.packed.rjust(16, b"\0")
    return struct.pack(">BBQ", peer.kind, flags, peer.distinguisher) + octets + struct.pack(">I", ASN) + octets[12:] + struct.pack(">II", 1, 0)


def open_message(add_path):
    """An OPEN with four-octet AS numbers, and path identifiers of IPv4 unicast in both directions where it is said."""
    capabilities = struct.pack(">BBI", 65, 4, ASN)
    if add_path:
        capabilities += struct.pack(">BBHBB", 69, 4, 1, 1, 3)
    parameter = bytes([2, len(capabilities)]) + capabilities
    body = struct.pack(">BHH", 4, ASN, 180) + ROUTER + bytes([len(parameter)]) + parameter
    return bgp_message(1, body)


def bgp_message(kind, body):
    return b"\xff" * 16 + struct.pack(">HB", 19 + len(body), kind) + body


def peer_up(peer):
    """A Peer Up Notification (section 4.10)."""
    local = bytes(16) if peer.kind == LOC_RIB else ROUTER.rjust(16, b"\0")
    ports = struct.pack(">HH", 0, 0) if peer.kind == LOC_RIB else struct.pack(">HH", 179, 50000)
    return message(3, per_peer(peer) + local + ports + 2 * open_message(peer.add_path))


def peer_down(peer):
    """A Peer Down Notification: the remote system closed the session, without a notification (section 4.9)."""
    return message(2, per_peer(peer) + bytes([4]))


def attribute(flags, kind, value):
    """A path attribute of less than 256 octets."""
    return bytes([flags, kind, len(value)]) + value


def usual_attributes(path, med=None, next_hop="192.0.2.1"):
    """ORIGIN IGP, an AS_PATH of one sequence, MULTI_EXIT_DISC where there is one, and a NEXT_HOP, or none."""
    text = attribute(0x40, 1, b"\0") + attribute(0x40, 2, struct.pack(f">BB{len(path)}I", 2, len(path), *path))
    if next_hop is not None:
        text += attribute(0x40, 3, socket.inet_aton(next_hop))
    if med is not None:
        text += attribute(0x80, 4, struct.pack(">I", med))
    return text


def nlri(prefix, identifier=None):
    """A prefix as an UPDATE has it, behind its path identifier, if any (RFC 4271, section 4.3; RFC 7911, section 3)."""
    network = ipaddress.ip_network(prefix)
    octets = network.network_address.packed[:(network.prefixlen + 7) // 8]
    return (b"" if identifier is None else struct.pack(">I", identifier)) + bytes([network.prefixlen]) + octets


def slash24(number):
    """The IPv4 prefix of 24 bits of this number, as an UPDATE has it."""
    return bytes([24]) + struct.pack(">I", number << 8)[:3]


def monitoring(peer, view="adj-in-pre", withdrawn=b"", attributes=b"", routes=b""):
    """A Route Monitoring message with an UPDATE; with nothing said the End-of-RIB of IPv4 (section 4.6; RFC 4724, section 2)."""
    body = struct.pack(">H", len(withdrawn)) + withdrawn + struct.pack(">H", len(attributes)) + attributes + routes
    return message(0, per_peer(peer, view) + bgp_message(2, body))


def reset(connection):
    """Closes a connection by a reset, so that what wasn't read yet is lost."""
    connection.setsockopt(socket.SOL_SOCKET, socket.SO_LINGER, struct.pack("ii", 1, 0))
    connection.close()
