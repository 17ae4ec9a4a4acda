"""The archive file, read by its form alone."""


def content(file):
    """The bytes that an archive has kept: those of its records, up to a byte other than 1. None where it is no archive."""
    at, pieces = 0, []
    while file[at:at + 1] == b"\1":
        size = int.from_bytes(file[at + 1:at + 5], "big")
        if len(file) < at + 5 + size or size > 65536:
            return None
        pieces.append(file[at + 5:at + 5 + size])
        at += 5 + size
    return b"".join(pieces) if at < len(file) else None
