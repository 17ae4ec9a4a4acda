"""What is kept of the routes of a reply, and their prefixes as numbers. It is no part of what is proved."""
import ipaddress
import socket

from bmplines import MOST_NUMBER, UnknownLine, community_of, ext_octets, is_whole, split_front, with_attributes, without_attributes

WIDTHS = {4: 32, 6: 128}
BITS = {str(bits): bits for bits in range(129)}


def prefix_of(text):
    """The family of a prefix, its address as a number, and its bits; the bits past these are cleared."""
    address, _, bits = text.partition("/")
    bits = BITS.get(bits)
    try:
        if ":" not in address:
            version, width, value = 4, 32, socket.inet_pton(socket.AF_INET, address)
        elif "." not in address:
            version, width, value = 6, 128, socket.inet_pton(socket.AF_INET6, address)
        else:
            raise ValueError(text)
        past = width - bits
        return version, int.from_bytes(value, "big") >> past << past, bits
    except (OSError, ValueError, TypeError) as fault:
        raise ValueError(text) from fault


def prefix_in(row):
    """The same of a line that a station wrote."""
    try:
        return prefix_of(row["prefix"])
    except ValueError as fault:
        raise UnknownLine(row["prefix"]) from fault


def has_as(path, asn):
    """Whether the number is in a segment of any kind."""
    for piece in path or ():
        if piece == asn or isinstance(piece, dict) and any(asn in numbers for numbers in piece.values()):
            return True
    return False


def is_told(community):
    """Whether a route's line tells such communities: those of RFC 1997."""
    try:
        return bool(community_of(community))
    except ValueError:
        return False


def has_community(route, community):
    """Whether a route of a whole line has this large or extended community."""
    if community.count(":") == 2 and not community.startswith("r"):
        return community in route["large_communities"]
    return any(ext_octets(one) == ext_octets(community) for one in route["ext_communities"])


class Filter:
    """Keeps a route that has all of what is asked for. What a query has words for is asked of the station too, which then tells
    fewer routes: one of the communities, and one AS of the path."""

    def __init__(self, communities=(), ases=(), next_hops=(), longer=None):
        self.communities = {community for community in communities if is_told(community)}
        # What a whole line alone tells. Else the station looks for it, of one community.
        self.untold = sorted(set(communities) - self.communities)
        self.ases = ases
        self.next_hops = [str(ipaddress.ip_address(hop)) for hop in next_hops]
        self.longer = longer

    @property
    def keeps_all(self):
        return not (self.communities or self.untold or self.ases or self.next_hops) and self.longer is None

    def can_ask(self, query):
        """Whether the query is for whole lines, or has room for what no other line tells."""
        return not self.untold or "full" in split_front(query)[0] or len(self.untold) == 1 and "community" not in without_attributes(query)[1]

    def asked(self, query):
        """The query for fewer routes, among which are all that are kept."""
        # A greater number stands in no path, and in no query.
        ases = [str(asn) for asn in self.ases if asn <= MOST_NUMBER]
        communities = [*self.untold, *sorted(self.communities)]
        wanted = zip(("through", "community"), (ases, communities))
        return with_attributes(query, {name: values[0] for name, values in wanted if values})

    def keeps(self, route):
        if self.longer is not None and prefix_in(route)[2] <= self.longer:
            return False
        if self.communities and not self.communities.issubset(route["comm"]):
            return False
        if self.untold and is_whole(route) and not all(has_community(route, one) for one in self.untold):
            return False
        if self.next_hops:
            hops = (route["next"] or "").split(",")
            if not all(hop in hops for hop in self.next_hops):
                return False
        return all(has_as(route["path"], asn) for asn in self.ases)
