"""The file of a store, for scripts that write or read one by themselves. docs/FORMAT.md describes
both formats: every store is of the second, and the first is that of older stores.
"""
import hashlib
import struct

MAGIC, FIRST, HIDDEN = b"FEDIJRN2", b"FEDIJRN1", b"FEDIJRN0"
# The seal that the first record continues.
START = bytes(32)


class Damaged(Exception):
    """The offset of the gate at which a file is damaged."""


def with_length(record):
    return struct.pack(">Q", len(record)) + record


def seal_after(before, record):
    """The seal of a record that comes after the record with this seal."""
    return hashlib.sha256(before + with_length(record)).digest()


def sealed(records, before=START):
    """What follows the beginning of a file, or the record with this seal: each record after its
    open gate, with its seal. The closed gate is left out.
    """
    for record in records:
        before = seal_after(before, record)
        yield b"\1" + with_length(record) + before


def write(path, records):
    """Writes a store of these records."""
    with open(path, "wb") as file:
        file.write(MAGIC)
        file.writelines(sealed(records))
        file.write(b"\0")


def write_first(path, records):
    """Writes a store of the first format, which has no seals."""
    with open(path, "wb") as file:
        file.write(FIRST)
        file.writelines(b"\1" + with_length(record) for record in records)
        file.write(b"\0")


def gates(whole):
    """The offset of each gate, and the record and the seal that follow it: `None` for both at the
    closed gate, which comes last. The seals are not compared. The file is of either format, or the
    rest of one that was being filled.
    """
    if len(whole) < 9 or whole[:8] not in (MAGIC, FIRST, HIDDEN):
        raise ValueError("not a store")
    width, at = 0 if whole[:8] == FIRST else len(START), 8
    while whole[at] == 1:
        length = int.from_bytes(whole[at + 1 : at + 9], "big")
        end = at + 9 + length + width
        if end >= len(whole):
            raise Damaged(at)
        yield at, whole[at + 9 : at + 9 + length], whole[at + 9 + length : end]
        at = end
    if whole[at] != 0:
        raise Damaged(at)
    yield at, None, None


def records(whole):
    """The records of a file. Each seal is compared, if the format has seals."""
    before = START
    for at, record, seal in gates(whole):
        if record is None:
            return
        before = seal_after(before, record)
        if seal and seal != before:
            raise Damaged(at)
        yield record


def tip_of(records):
    """The seal of the last of these records, or what the first one continues."""
    before = START
    for record in records:
        before = seal_after(before, record)
    return before
