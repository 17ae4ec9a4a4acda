r"""The messages of tests/messages.json, and bytes that are told by parts.

    python3 tests/tools/messages.py NAME.. > stream.bmp

writes messages and streams, one after another.

A message has a name, a sentence that says what it is, and its fields in their order: hexadecimal digits with a blank
between parts, and what they say. Fields that stand there several times are told once, with `times`. Where a name or a
sentence says no other, the peer is 192.0.2.1 of AS 64500, the view Adj-RIB-In before policy, and the path 64500. A
stream has the names of its messages.

Bytes are told as a list of parts, or as one of them:

    "peer_up"                            a message or a stream, by its name
    {"hex": "0300", "is": "its front"}   other bytes, and what they are
    {"text": "a line\n"}                 a text in UTF-8
    {"times": 80, "of": [..]}            so many times what other parts tell
    {"first": 152, "of": [..]}           so many bytes of the front of these
    {"record": [..]}                     an archive's record that holds these (docs/WIRE.md)
    {"records": [3, 20], "of": [..]}     records of so many bytes each, that together hold these; all of one size where
                                         there is a number in place of the list
"""
import functools
import json
import pathlib
import sys

FILE = pathlib.Path(__file__).resolve().parent.parent / "messages.json"


@functools.cache
def entries():
    return json.loads(FILE.read_text())


def field_bytes(field):
    if isinstance(field, dict):
        return b"".join(map(field_bytes, field["fields"])) * field["times"]
    return bytes.fromhex(field[0])


def entry_bytes(entry):
    """The bytes of a message or a stream."""
    return bytes_of(entry["messages"]) if "messages" in entry else b"".join(map(field_bytes, entry["fields"]))


def record(data):
    return b"\1" + len(data).to_bytes(4, "big") + data


def records(data, sizes):
    """The records of these sizes that hold all the bytes."""
    if isinstance(sizes, int):
        sizes = [sizes] * (len(data) // sizes)
    pieces, at = [], 0
    for size in sizes:
        pieces.append(record(data[at:at + size]))
        at += size
    if at != len(data):
        raise ValueError(f"records of {at} bytes for {len(data)}")
    return b"".join(pieces)


def bytes_of(told):
    """The bytes that parts tell."""
    if isinstance(told, list):
        return b"".join(map(bytes_of, told))
    if isinstance(told, str):
        return entry_bytes(entries()[told])
    if "hex" in told:
        return bytes.fromhex(told["hex"])
    if "text" in told:
        return told["text"].encode()
    if "record" in told:
        return record(bytes_of(told["record"]))
    data = bytes_of(told["of"])
    if "records" in told:
        return records(data, told["records"])
    if "first" in told:
        return data[:told["first"]]
    return data * told["times"]


if __name__ == "__main__":
    sys.stdout.buffer.write(bytes_of(sys.argv[1:]))
