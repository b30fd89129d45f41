"""The trace format of document 01, with kind 11 of document 02, its text form, and the way from each to the other."""

import re
import struct
from typing import Iterator, NamedTuple

VERSION = 1
RAW_BYTES = 32  # of a bad record, on one line of text


class RecordKind(NamedTuple):
    number: int
    name: str
    takes_slot: bool  # if not, the slot byte is ignored
    arguments: tuple[str, ...]
    optional: int = 0  # how many of the last arguments may be left out, and are 0 then

    def usage(self) -> str:
        required = len(self.arguments) - self.optional
        words = [self.name, *["SLOT"][:self.takes_slot], *self.arguments[:required]]
        words += ["[" + argument for argument in self.arguments[required:]]
        return " ".join(words) + "]" * self.optional + ("" if self.takes_slot else " [slot=N]")


class Record(NamedTuple):
    kind: RecordKind
    slot: int
    arguments: tuple[int, ...]


class Bad(NamedTuple):
    at: int
    why: str


class TextError(Exception):
    """A line that is not of the text form."""


KINDS = (
    RecordKind(1, "create", False, ()),
    RecordKind(2, "donate", True, ("FRAME", "GRANULE")),
    RecordKind(3, "run", True, ()),
    RecordKind(4, "hypercall", True, ("R0", "R1", "R2", "R3"), optional=3),
    RecordKind(5, "abort", True, ("IPA",)),
    RecordKind(6, "remove", True, ()),
    RecordKind(7, "cleared", False, ("FRAME",)),
    RecordKind(8, "access", False, ("FRAME",)),
    RecordKind(9, "register_read", True, ("REGISTER",)),
    RecordKind(10, "register_write", True, ("REGISTER", "VALUE")),
    RecordKind(11, "create_legacy", False, ()),
)
FUNCTIONS = {
    "features": 0x86000000, "uid": 0x8600FF01, "memory_info": 0xC6000002, "share": 0xC6000003,
    "unshare": 0xC6000004, "guard_info": 0xC6000005, "enroll": 0xC6000006, "guard_map": 0xC6000007,
    "guard_unmap": 0xC6000008, "relinquish": 0xC6000009, "range_guard_map": 0xC600000A,
    "range_guard_unmap": 0xC600000B,
}
REGISTERS = {"std": 0, "std_hyp": 1, "vendor_hyp": 2}
NUMBERS = {"R0": FUNCTIONS, "REGISTER": REGISTERS}  # arguments that may be given by name
NAMES = {argument: {n: name for name, n in numbers.items()} for argument, numbers in NUMBERS.items()}
HEXADECIMAL = {"R0", "R1", "IPA", "VALUE"}
NUMBER = re.compile(r"(?!.{99})(?:0[xX][0-9a-fA-F]+(?:_[0-9a-fA-F]+)*|[0-9]+(?:_[0-9]+)*)")

LAYOUTS = {kind: struct.Struct(f">HBBB{len(kind.arguments)}Q") for kind in KINDS}
LENGTHS = {kind: layout.size - 2 for kind, layout in LAYOUTS.items()}  # of the rest, after the length itself
HEADS = {struct.pack(">HBB", LENGTHS[kind], VERSION, kind.number): kind for kind in KINDS}
KIND_NAMED = {kind.name: kind for kind in KINDS}
KIND_NUMBERED = {kind.number: kind for kind in KINDS}


def number(word: str, argument: str) -> int:
    names = NUMBERS.get(argument, {})
    most = 255 if argument == "SLOT" else 2**64 - 1
    value = names.get(word)
    if value is None and NUMBER.fullmatch(word):
        value = int(word, 16 if word[:2] in ("0x", "0X") else 10)
    if value is None or value > most:
        choices = f" or one of {', '.join(names)}" if names else ""
        raise TextError(f"expected {argument}, a number from 0 to {most}{choices}; found {word!r}")
    return value


def encode_raw(words: list[str]) -> bytes:
    digits = " ".join(words)
    if not re.fullmatch(r"(?: ?[0-9a-fA-F]{2})+", digits):
        raise TextError(f"expected bytes after raw, two hex digits each; found {digits!r}")
    return bytes.fromhex(digits)


def encode_record(name: str, words: list[str]) -> bytes:
    kind = KIND_NAMED.get(name)
    if kind is None:
        raise TextError(f"expected one of {', '.join(KIND_NAMED)}, raw; found {name!r}")
    if kind.takes_slot:
        given = words
    elif words and words[-1].startswith("slot="):
        given = [words[-1].removeprefix("slot="), *words[:-1]]
    else:
        given = ["0", *words]
    expected = ("SLOT", *kind.arguments)
    if not len(expected) - kind.optional <= len(given) <= len(expected):
        raise TextError(f"expected {kind.usage()}; found {' '.join([name, *words])!r}")
    values = [number(word, argument) for word, argument in zip(given, expected)]
    values += [0] * (len(expected) - len(given))
    return LAYOUTS[kind].pack(LENGTHS[kind], VERSION, kind.number, *values)


def encode(text: str) -> bytes:
    trace = bytearray()
    for place, line in enumerate(text.split("\n"), 1):
        name, *words = line.partition("#")[0].split() or [""]
        try:
            if name:
                trace += encode_raw(words) if name == "raw" else encode_record(name, words)
        except TextError as error:
            raise TextError(f"line {place}: {error}") from None
    return bytes(trace)


def fault(trace: bytes, at: int) -> str:
    """Why the record at this byte is bad: its first fault, in the order of the bytes."""
    head = trace[at:at + 4]
    length = int.from_bytes(head[:2], "big")
    kind = KIND_NUMBERED.get(head[3]) if len(head) == 4 else None
    if len(head) >= 2 and length not in LENGTHS.values():
        return f"length {length} at byte {at}: no kind has it"
    if len(head) >= 3 and head[2] != VERSION:
        return f"version {head[2]} at byte {at + 2}: must be {VERSION}"
    if len(head) == 4 and kind is None:
        return f"kind {head[3]} at byte {at + 3}: no such kind"
    if kind and length != LENGTHS[kind]:
        return f"length {length} at byte {at}: {kind.name} has {LENGTHS[kind]}"
    whole = f" of {2 + length}" if len(head) >= 2 else ""
    return f"short record at byte {at}: the trace ends after {len(trace) - at}{whole} of its bytes"


def read(trace: bytes) -> Iterator[Record | Bad]:
    """The good records, then the bad one if there is one; what follows it is passed over."""
    at = 0
    while at < len(trace):
        kind = HEADS.get(trace[at:at + 4])
        if kind is None or len(trace) - at < LAYOUTS[kind].size:
            yield Bad(at, fault(trace, at))
            return
        _, _, _, slot, *arguments = LAYOUTS[kind].unpack_from(trace, at)
        yield Record(kind, slot, tuple(arguments))
        at += LAYOUTS[kind].size


def shown(value: int, argument: str) -> str:
    as_hex = (argument in HEXADECIMAL and value > 0) or value >= 2**16
    return NAMES.get(argument, {}).get(value) or (f"{value:#x}" if as_hex else str(value))


def line_of(record: Record) -> str:
    kind, slot, arguments = record
    words = [kind.name, *[str(slot)][:kind.takes_slot], *map(shown, arguments, kind.arguments)]
    return " ".join(words) + (f" slot={slot}" if slot and not kind.takes_slot else "")


def decode(trace: bytes) -> Iterator[str]:
    for item in read(trace):
        if isinstance(item, Record):
            yield line_of(item)
            continue
        yield f"# bad: {item.why}"
        for at in range(item.at, len(trace), RAW_BYTES):
            yield "raw " + trace[at:at + RAW_BYTES].hex(" ")
