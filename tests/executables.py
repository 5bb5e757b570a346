"""Executables for RISC-V, made byte by byte, and what a task has of them."""
import struct
from types import SimpleNamespace

TEXT, DATA, WINDOW = 0, 0x10000000, 0x10000
HEAD = "<16sHHIIIIIHHHHHH"
MAGIC = b"\x7fELF\x01\x01\x01"
LOAD = 1


def load(at, content=b"", memory=None, size=None, offset=None, kind=LOAD):
    """A program header with the bytes that it loads: `memory` and `size` are those of the bytes where they aren't given,
    and `offset` is where the bytes stand in the file."""
    size = len(content) if size is None else size
    memory = size if memory is None else memory
    return SimpleNamespace(at=at, content=content, memory=memory, size=size, offset=offset, kind=kind)


def executable(*loads, entry=0, headers=52):
    """A file with its head, the headers of the loads at the place `headers`, and the bytes of the loads."""
    place = headers + 32 * len(loads)
    table, contents = b"", b""
    for one in loads:
        offset = place + len(contents) if one.offset is None else one.offset
        table += struct.pack("<8I", one.kind, offset, one.at, 0xAAAAAAAA, one.size, one.memory, 0xBBBBBBBB, 0xCCCCCCCC)
        contents += one.content
    rest = (0xDDDDDDDD, 0xEEEEEEEE, 0xDDDD, 32, len(loads), 0xDDDD, 0xDDDD, 0xDDDD)
    head = struct.pack(HEAD, MAGIC, 2, 243, 1, entry, headers, *rest)
    return head.ljust(headers, b"\xee") + table + contents


def changed(file, place, *values):
    """The file with other bytes from a place on."""
    return file[:place] + bytes(values) + file[place + len(values) :]


def words_of(content):
    """The words of some bytes; the last one is filled up with zeros."""
    filled = content + bytes(-len(content) % 4)
    return [f"{word:08x}" for (word,) in struct.iter_unpack("<I", filled)]
