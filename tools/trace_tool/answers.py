"""What a replay answers, in words, beside the calls."""

import re

from trace_tool.text import NAMES, Bad, Record, line_of, read

WIDTH = 68  # of a call and its five numbers; the words after them end at column 120
ANSWER = re.compile(r"[0-9]{1,20}(?: [0-9]{1,20}){4}")

VERDICTS = {
    0: "done{done}",
    1: "refused: table length out of bounds",
    2: "refused: slot above 7 or not live",
    3: "refused: guest never run",
    4: "refused: frame or granule out of range",
    5: "refused: frame not host's / granule not vacant",
    6: "refused: damaged word",
    7: "refused: no free slot",
    8: "refused: frame not waiting",
    9: "register refused: {error}",
    10: "returns to the guest: {returned}",
    11: "MMIO exit at {v0:#x}",
    12: "exception",
    13: "resume",
}
REGISTER_ERRORS = {
    -2: "-2 ENOENT, no such register",
    -22: "-22 EINVAL, bit not allowed",
    -16: "-16 EBUSY, guest has run",
}
GUEST_ERRORS = {-1: "-1 (not supported)", -3: "-3 (invalid parameter)"}


def counted(number: int, noun: str) -> str:
    return f"{number} {noun}" + ("" if number == 1 else "s")


def signed(value: int) -> int:
    return value - 2**64 if value >= 2**63 else value


def done(name: str, v0: int) -> str:
    match name:
        case "create":
            return f", slot {v0}"
        case "create_legacy":
            return f", legacy guest created in slot {v0}"
        case "remove":
            return f", {counted(v0, 'frame')} to be cleared"
        case "access":
            return f", the host {'may' if v0 else 'may not'} access it"
        case "register_read":
            return f", bitmap {v0:#x}"
    return ""


def returned(function: str | None, r0: int, r1: int) -> str:
    if signed(r0) in GUEST_ERRORS:
        return GUEST_ERRORS[signed(r0)]
    match function:
        case "share" | "unshare" if r1 == 0:  # one granule, which a legacy guest is not told
            return f"{r0}, 1 granule done (legacy)"
        case "share" | "unshare" | "range_guard_map" | "range_guard_unmap":
            return f"{r0}, {counted(r1, 'granule')} done"
        case "memory_info" | "guard_info":
            return f"{r0}, R1 = {r1}"
        case "features":
            return f"features {r0:#x}"
        case "uid":
            return "the UID"
    return str(r0)


def meaning(record: Record, answer: str) -> str:
    verdict, v0, v1, _, _ = map(int, answer.split())
    function = NAMES["R0"].get(record.arguments[0] % 2**32) if record.arguments else None
    return VERDICTS.get(verdict, "no verdict of document 01").format(
        v0=v0, done=done(record.kind.name, v0), returned=returned(function, v0, v1),
        error=REGISTER_ERRORS.get(signed(v0), signed(v0)))


def rows(records: list[Record], answers: list[str]) -> list[str]:
    calls = [re.sub(f"( 0){{0,{record.kind.optional}}}$", "", line_of(record)) for record in records]
    width = min(WIDTH, max((len(call) + 2 + len(answer) for call, answer in zip(calls, answers)), default=0))
    digits = len(str(len(records)))
    lines = []
    for n, (record, call, answer) in enumerate(zip(records, calls, answers), 1):
        gap = " " * max(1, width - len(call) - len(answer))
        lines.append(f"{n:{digits}} {call}{gap}{answer}  {meaning(record, answer)}")
    return lines


def annotate(trace: bytes, output: str) -> tuple[list[str], list[str]]:
    """The replay's output beside the trace's calls, and where the two disagree."""
    records = list(read(trace))
    bad = records.pop() if records and isinstance(records[-1], Bad) else None
    why = bad.why if bad else "no record is bad"
    lines = output.splitlines()
    answers = [line for line in lines if ANSWER.fullmatch(line)]
    disagreements = []
    if len(answers) != len(records):
        disagreements.append(
            f"the replay gave {counted(len(answers), 'answer')} to {counted(len(records), 'good record')}")
    if ("bad" in lines) != bool(bad):
        disagreements.append(f"the replay {'said' if 'bad' in lines else 'did not say'} `bad`, but {why}")
    if lines != ["monitor 1", *answers, *["bad"][:"bad" in lines], f"end {len(answers)}"]:
        disagreements.append("the replay's output is not `monitor 1`, answers, perhaps `bad`, `end` and their number")
    return rows(records, answers) + [f"bad: {why}"] * ("bad" in lines) + lines[-1:], disagreements
