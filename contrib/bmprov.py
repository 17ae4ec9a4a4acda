"""Origin validation of routes (RFC 6811) by a file of validated payloads. It is no part of what is proved.

The file is the CSV that routinator and rpki-client write: a record of headings, and then an AS number with or without
`AS`, a prefix, a longest length or nothing, and further fields, which are passed over.
"""
import csv
import io

from bmplines import number
from bmprows import WIDTHS, prefix_in, prefix_of

MOST_FILE = 1 << 26
MOST_AS = (1 << 32) - 1
LOC_RIB = "3"
# The byte order mark of UTF-8.
MARK = b"\xef\xbb\xbf"

# A route's verdict. The last is no word of RFC 6811: a payload covers the route, but its origin is the router's own AS,
# of which nothing tells.
VERDICTS = ("valid", "invalid", "not-found", "unknown")
OWN = object()


class BadFile(Exception):
    """`longfile`, or `badfile N`, where record N is the first that isn't of the form; the headings are record 0, which are
    bad where the file is JSON. Or why the file can't be read."""


def payload_of(record):
    """The prefix of a record, by `prefix_of`, its longest length, and its AS number."""
    asn, prefix, longest = record[:3]
    asn = number(asn.removeprefix("AS"))
    version, address, bits = prefix_of(prefix)
    longest = number(longest) if longest else bits
    if asn > MOST_AS or not bits <= longest <= WIDTHS[version]:
        raise ValueError(record)
    return version, address, bits, longest, asn


def records_of(data):
    """The records of a CSV text as RFC 4180 has them; CR, LF or both end one, and an empty line is none."""
    csv.field_size_limit(MOST_FILE)
    text = io.TextIOWrapper(io.BytesIO(data.removeprefix(MARK)), encoding="latin-1", newline="")
    return filter(None, csv.reader(text))


class Payloads:
    """The payloads by family, length and prefix."""

    def __init__(self, data):
        if len(data) > MOST_FILE:
            raise BadFile("longfile")
        if data.removeprefix(MARK).lstrip(b" \t\r\n").startswith((b"{", b"[")):
            raise BadFile("badfile 0: this is JSON, and payloads are read as CSV")
        # Of each family the lengths, in order, and the payloads of each by the first bits: a number of longest length
        # and AS, or a list of such numbers.
        found = {4: {}, 6: {}}
        self.count = 0
        records, line = records_of(data), 0
        try:
            next(records, None)
            for line, record in enumerate(records, 1):
                version, address, bits, longest, asn = payload_of(record)
                held = found[version].setdefault(bits, {})
                first, one = address >> WIDTHS[version] - bits, longest << 32 | asn
                there = held.setdefault(first, one)
                if there is not one:
                    held[first] = there + (one,) if isinstance(there, tuple) else (there, one)
                self.count += 1
        except csv.Error as fault:
            raise BadFile(f"badfile {line + 1}") from fault
        except ValueError as fault:
            raise BadFile(f"badfile {line}") from fault
        self.lengths = {version: sorted(held.items()) for version, held in found.items()}

    def verdict(self, row, origin):
        """The verdict on a route with this origin AS: None where it has none, OWN where it is not known."""
        version, address, bits = prefix_in(row)
        width = WIDTHS[version]
        is_covered = False
        for length, held in self.lengths[version]:
            if length > bits:
                break
            found = held.get(address >> width - length)
            if found is None:
                continue
            is_covered = True
            if not origin or origin is OWN:
                continue
            for one in found if isinstance(found, tuple) else (found,):
                if one & MOST_AS == origin and one >> 32 >= bits:
                    return "valid"
        if is_covered:
            return "unknown" if origin is OWN else "invalid"
        return "not-found"


def read_payloads(path):
    try:
        with open(path, "rb") as file:
            data = file.read(MOST_FILE + 1)
    except OSError as fault:
        raise BadFile(fault) from fault
    return Payloads(data)


def own_ases(peers):
    """The AS of each router that a Loc-RIB Instance Peer tells of, from the rows of `peers`."""
    up = (row for row in peers if row["state"] == "up" and row["peer"].split("-")[0] == LOC_RIB)
    return {row["router"]: row["asn"] for row in up if row["asn"]}


def origin_as(path, own):
    """The origin of RFC 6811, section 2: `own` where the path is empty or ends in a confederation, None where in a set."""
    if not path:
        return own
    last = path[-1]
    if isinstance(last, int):
        return last
    return None if "set" in last else own
