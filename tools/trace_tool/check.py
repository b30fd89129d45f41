"""The tool's own check, against the example files and bytes at random."""

import os
import random
import shlex
import subprocess
import sys
from pathlib import Path
from typing import Iterator

from trace_tool.answers import annotate
from trace_tool.text import KINDS, LAYOUTS, LENGTHS, VERSION, TextError, decode, encode

SEED = 20
RANDOM_TRACES = 2000
EXAMPLE = ["create", "donate 0 3 5", "run 0", "hypercall 0 share 0x5000 1 0"]
LEGACY = {  # calls, and the last words of their lines
    "create_legacy": ("0 0 0 0 0", "done, legacy guest created in slot 0"),
    "donate 0 3 5": ("0 0 0 0 0", "done"),
    "run 0": ("0 0 0 0 0", "done"),
    "hypercall 0 share 0x5000": ("10 0 0 0 0", "returns to the guest: 0, 1 granule done (legacy)"),
    "hypercall 0 memory_info": ("10 4096 0 0 0", "returns to the guest: 4096, R1 = 0"),
    "hypercall 0 features": ("10 669 0 0 0", "returns to the guest: features 0x29d"),
}
NO_EXAMPLES = ["empty.trace", "long.trace"]
BAD_TEXT = {
    "create\n\nsing 0": "line 3: expected one of create, donate, ",
    "create 0": "line 1: expected create [slot=N]; found 'create 0'",
    "create_legacy 0": "line 1: expected create_legacy [slot=N]; found 'create_legacy 0'",
    "donate 0 3 # 5": "line 1: expected donate SLOT FRAME GRANULE; found 'donate 0 3'",
    "run": "line 1: expected run SLOT; found 'run'",
    "run 256": "line 1: expected SLOT, a number from 0 to 255; found '256'",
    "access 3 slot=": "line 1: expected SLOT, a number from 0 to 255; found ''",
    "hypercall 0 share 0 0 0 0": "line 1: expected hypercall SLOT R0 [R1 [R2 [R3]]]; found ",
    "hypercall 0 shere": "line 1: expected R0, a number from 0 to 18446744073709551615 or one of features, ",
    "abort 0 -1": "line 1: expected IPA, a number from 0 to 18446744073709551615; found '-1'",
    "abort 0 0x1_0000_0000_0000_0000": "line 1: expected IPA, a number ",
    "abort 0 1__0": "line 1: expected IPA, a number ",
    "abort 0 " + "9" * 5000: "line 1: expected IPA, a number ",
    "raw": "line 1: expected bytes after raw, two hex digits each; found ''",
    "raw 00 1": "line 1: expected bytes after raw, two hex digits each; found '00 1'",
}


def round_trips(trace: bytes) -> bool:
    return encode("\n".join(decode(trace))) == trace


def message(text: str) -> str:
    try:
        encode(text)
    except TextError as error:
        return str(error)
    return ""


def random_trace(rng: random.Random) -> bytes:
    """Good records; in many traces one byte is changed, the end is cut off, or other bytes follow."""
    trace = bytearray()
    for kind in rng.choices(KINDS, k=rng.randrange(6)):
        arguments = [rng.choice((0, 2, 0xC6000003, rng.getrandbits(64))) for _ in kind.arguments]
        trace += LAYOUTS[kind].pack(LENGTHS[kind], VERSION, kind.number, rng.randrange(256), *arguments)
    if trace and rng.randrange(2):
        trace[rng.randrange(len(trace))] = rng.randrange(256)
    return bytes(trace[:rng.randrange(2 * len(trace) + 1)]) + rng.randbytes(rng.choice((0, 0, 1, 90)))


def example_checks(examples: Path) -> Iterator[tuple[str, bool]]:
    for stem in sorted({path.with_suffix("") for suffix in ("txt", "trace") for path in examples.glob(f"*.{suffix}")}):
        try:
            text, trace, out = (stem.with_suffix(suffix).read_bytes() for suffix in (".txt", ".trace", ".out"))
            yield f"{stem.name}: text encodes to trace", encode(text.decode()) == trace
        except (OSError, TextError) as error:
            yield f"{stem.name}: {error}", False
            continue
        yield f"{stem.name}: trace, cut anywhere, is kept by decode and encode", all(
            round_trips(trace[:end]) for end in range(len(trace) + 1))
        yield f"{stem.name}: output fits the trace", not annotate(trace, out.decode())[1]


def legacy_in_words() -> bool:
    answers = [answer for answer, _ in LEGACY.values()]
    lines, disagreements = annotate(encode("\n".join(LEGACY)), "\n".join(["monitor 1", *answers, f"end {len(LEGACY)}"]))
    words = [f"{answer}  {words}" for answer, words in LEGACY.values()]
    return not disagreements and all(line.endswith(end) for line, end in zip(lines, words))


def gate_checks(root: Path) -> Iterator[tuple[str, bool]]:
    """The logs that the gate replays are the examples, to the byte."""
    examples, crates = root / "examples", root / "crates"
    copies = {
        crates / "replay" / "stdin": "every_kind.trace",
        crates / "replay" / "stdout": "every_kind.out",
    } | {path: path.name for path in (crates / "replay_logs" / "data").iterdir() if path.name not in NO_EXAMPLES}
    for copy, example in sorted(copies.items()):
        yield f"{copy.relative_to(root)} is examples/{example}", copy.read_bytes() == (examples / example).read_bytes()
    names = (crates / "replay_logs" / "args").read_text().split()
    outputs = [(examples / name).with_suffix(".out").read_bytes() for name in names if name not in NO_EXAMPLES]
    stdout = (crates / "replay_logs" / "stdout").read_bytes()
    yield "crates/replay_logs/stdout begins with the outputs of the examples", stdout.startswith(b"".join(outputs))


def command_checks(tool: Path, example: Path) -> Iterator[tuple[str, bool]]:
    def run(*words: str | Path, given: bytes = b"") -> tuple[int, bytes]:
        ran = subprocess.run([sys.executable, tool, *words], input=given, capture_output=True)
        return ran.returncode, ran.stdout

    lines = "".join(line + "\n" for line in EXAMPLE).encode()
    cut_output = shlex.join(["head", "-n", "4", str(example.with_suffix(".out"))])
    yield "example decodes to its calls", run("decode", example) == (0, lines)
    yield "bad text: status 2, nothing written", run("encode", given=lines + b"run\n") == (2, b"")
    yield "no such file: status 2, nothing written", run("decode", example / "none") == (2, b"")
    yield "an answer is missing: status 1", run("annotate", "--replay", cut_output, example)[0] == 1
    reader, writer = os.pipe()
    os.close(reader)
    ran = subprocess.run([sys.executable, tool, "decode", example], stdout=writer, stderr=subprocess.PIPE)
    os.close(writer)
    yield "output into a closed pipe: no message", ran.stderr == b""


def checks(tool: Path, root: Path) -> Iterator[tuple[str, bool]]:
    examples = root / "examples"
    yield from example_checks(examples)
    yield from gate_checks(root)
    rng = random.Random(SEED)
    yield f"{RANDOM_TRACES} random traces (seed {SEED}) are kept by decode and encode", all(
        round_trips(random_trace(rng)) for _ in range(RANDOM_TRACES))
    yield "a legacy guest in words", legacy_in_words()
    for text, expected in BAD_TEXT.items():
        yield f"message for {text[:40]!r}", message(text).startswith(expected)
    yield from command_checks(tool, examples / "example.trace")


def check(tool: Path, root: Path) -> int:
    passed = failed = 0
    for name, holds in checks(tool, root):
        print("ok    " if holds else "FAILED", name)
        passed, failed = passed + holds, failed + (not holds)
    print(f"{passed} passed, {failed} failed")
    return 1 if failed else 0
