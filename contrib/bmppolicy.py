"""What a peer's inbound policy does: its routes before and after it beside each other. It is no part of what is proved.

Both stand in one reply of `table`, so at one revision. The rows come by router, view and prefix, so those of each side
are written to a file of their own, and the two are read beside each other: memory is bounded whatever the tables' size.
"""
import itertools

from bmplines import FULL_FIELDS, ROUTE_FIELDS, UnknownLine, is_whole, parse
from bmprows import prefix_in

BEFORE, AFTER = "adj-in-pre", "adj-in-post"
# A station that knows no whole lines tells the type codes alone of some attributes. Where both sides have such ones, and all else
# is the same, a route is `uncompared`: policy may have changed these. One that is on one side alone is `unknown` where the other
# table waits for its End-of-RIB.
KINDS = ("kept", "uncompared", "changed", "dropped", "added", "unknown")
# Each field of a line by its name in JSON, in the order of the line.
FIELDS = {name: name for name in ROUTE_FIELDS} | {member: name for name, member in FULL_FIELDS.items()}
# Of an attribute's flags those that say something of it: Optional, Transitive, Partial. The next tells how its length is written,
# and the last four nothing (RFC 4271, section 4.3).
TELLING_FLAGS = 0xE0


def complete_tables(marks):
    return {(mark["router"], mark["view"], mark["family"]) for mark in marks if mark["complete"]}


def split(lines, before, after):
    """Writes the route lines of both sides to their files, and gives the number of all lines, and the last, which is `end`."""
    count = 0
    for line in lines:
        if line.startswith(b"end "):
            return count, line
        count += 1
        words = line.split(b" ", 4)
        if len(words) != 5 or words[0] != b"route":
            raise UnknownLine(line.decode("ascii", "backslashreplace"))
        side = {BEFORE.encode(): before, AFTER.encode(): after}.get(words[3])
        if side is not None:
            side.write(line + b"\n")
    raise UnknownLine("a reply without an end")


def by_prefix(file):
    """The routes of each router's prefix in a file, and both as numbers, which must rise."""
    file.seek(0)
    last = None
    read = (parse(line.rstrip(b"\n")) | {"text": line.decode("ascii").rstrip("\n")} for line in file)
    for key, rows in itertools.groupby(read, lambda row: (row["router"], prefix_in(row))):
        if last is not None and key <= last:
            raise UnknownLine("prefixes out of order")
        last = key
        yield key, list(rows)


def beside(before, after):
    """The routes of each prefix on both sides."""
    left, right = next(before, None), next(after, None)
    while left or right:
        key = min(side[0] for side in (left, right) if side)
        here = left is not None and left[0] == key
        there = right is not None and right[0] == key
        yield left[1] if here else [], right[1] if there else []
        if here:
            left = next(before, None)
        if there:
            right = next(after, None)


def uncompared(before, after):
    """The type codes of the attributes that both sides have, and of which nothing else is known."""
    if not before or not after or is_whole(before) and is_whole(after):
        return []
    return [code for code in before["other"] if code in after["other"]]


def differ_in_flags(before, after):
    """Whether an attribute that both sides have has other flags."""
    return any((int(before[code], 16) ^ int(after[code], 16)) & TELLING_FLAGS for code in before if code in after)


def changes_of(before, after):
    """The names of the fields that differ. An attribute that one side has not differs in `other`, and in its own field."""
    return [name for name in FIELDS if name in before and name in after
            and (differ_in_flags(before[name], after[name]) if name == "flags" else before[name] != after[name])]


def pairs(before, after):
    """The routes of a prefix in pairs: those of the same identifier, then any that have the same attributes, then any."""
    for is_pair in (lambda a, b: a["id"] == b["id"], lambda a, b: not changes_of(a, b),
                    lambda a, b: None in (a["id"], b["id"])):
        for row in list(before):
            found = next((other for other in after if is_pair(row, other)), None)
            if found is not None:
                before.remove(row)
                after.remove(found)
                yield row, found
    yield from ((row, None) for row in before)
    yield from ((None, row) for row in after)


def judged(before, after, complete):
    """What became of a route, and the names of the attributes that differ. `complete` has the complete tables, or is None
    where all are taken as such."""
    row = before or after
    family = 6 if ":" in row["prefix"] else 4
    if before and after:
        changes = changes_of(before, after)
        return ("changed" if changes else "uncompared" if uncompared(before, after) else "kept"), changes
    missing, what = (BEFORE, "added") if after else (AFTER, "dropped")
    is_known = complete is None or (row["router"], missing, family) in complete
    return (what if is_known else "unknown"), []


def compare(before, after, complete):
    """For each route of both files what became of it: the word, the attributes that differ, and both rows."""
    for left, right in beside(by_prefix(before), by_prefix(after)):
        for one, other in pairs(left, right):
            yield *judged(one, other, complete), one, other


def text_of(what, before, after):
    """A line of the comparison: the attributes as the station wrote them, `before>after` where they differ."""
    row = before or after
    sides = [dict(word.split("=", 1) for word in side["text"].split(" ")[5:]) for side in (before, after) if side]
    words = [f"{name}={'>'.join(dict.fromkeys(side[name] for side in sides))}" for name in FIELDS.values() if all(name in side for side in sides)]
    identifier = [] if row["id"] is None else [f"id={row['id']}"]
    text = " ".join([*words[:len(ROUTE_FIELDS)], *identifier, *words[len(ROUTE_FIELDS):]])
    return f"policy {row['router']} {row['peer']} {row['prefix']} {what} {text}"


def fields_of(what, changes, before, after):
    """The same as the members of a JSON object."""
    row = before or after
    sides = [side and {name: side[name] for name in FIELDS if name in side} for side in (before, after)]
    return {"line": "policy", "router": row["router"], "peer": row["peer"], "prefix": row["prefix"], "id": row["id"],
            "what": what, "changes": changes, "uncompared": uncompared(before, after), "before": sides[0], "after": sides[1]}
