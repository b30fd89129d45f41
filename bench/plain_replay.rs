//! Replays a trace from standard input in ordinary Rust: the same text as the proved replay.

mod plain;

use plain::{ALL_RECORDS_WORDS, Answer, Records};
use std::io::{self, ErrorKind, Read, Write};
use std::process::ExitCode;

const FRAMES: usize = 256;
const MAP_WORDS: usize = 8 * 64;
const PIECE: usize = 65_536;
const BLOCK: usize = 65_536;
const LONGEST_RECORD: usize = 5 + 4 * 8;
const LONGEST_LINE: usize = 5 * 21;

struct Monitor {
    records: Records,
    frames: [u32; FRAMES],
    map: [u32; MAP_WORDS],
}

impl Monitor {
    fn fresh() -> Self {
        Self {
            records: [0; ALL_RECORDS_WORDS],
            frames: [0; FRAMES],
            map: [0; MAP_WORDS],
        }
    }

    /// Makes the call of a good record.
    fn perform(&mut self, kind: u8, slot: u64, arguments: &[[u8; 8]]) -> Answer {
        let Self {
            records,
            frames,
            map,
        } = self;
        let argument = |index: usize| u64::from_be_bytes(arguments[index]);
        match kind {
            1 => plain::create(records, frames, map),
            2 => plain::donate(records, frames, map, slot, argument(0), argument(1)),
            3 => plain::run(records, slot),
            4 => {
                let registers = std::array::from_fn(argument);
                plain::hypercall(records, frames, map, slot, registers)
            }
            5 => plain::abort(records, frames, map, slot, argument(0)),
            6 => plain::remove(records, frames, map, slot),
            7 => plain::cleared(frames, map, argument(0)),
            8 => plain::access(frames, map, argument(0)),
            9 => plain::register_read(records, slot, argument(0)),
            10 => plain::register_write(records, slot, argument(0), argument(1)),
            11 => plain::create_legacy(records, frames, map),
            _ => unreachable!("no good record has kind {kind}"),
        }
    }
}

/// What stands at the front of some bytes of a trace.
enum Front<'a> {
    Good {
        kind: u8,
        slot: u8,
        arguments: &'a [[u8; 8]],
        rest: &'a [u8],
    },
    Bad,
    Unfinished,
}

/// The number of arguments of a kind.
fn arguments_of(kind: u8) -> Option<usize> {
    match kind {
        1 | 3 | 6 | 11 => Some(0),
        5 | 7..=9 => Some(1),
        2 | 10 => Some(2),
        4 => Some(4),
        _ => None,
    }
}

/// Looks for a record. One that can't become good is bad before it is whole.
fn front(bytes: &[u8]) -> Front<'_> {
    let Some((&[high, low, version, kind, slot], after)) = bytes.split_first_chunk() else {
        return short_front(bytes);
    };
    let Some(count) = arguments_of(kind) else {
        return Front::Bad;
    };
    if usize::from(u16::from_be_bytes([high, low])) != 3 + 8 * count || version != 1 {
        return Front::Bad;
    }
    match after.split_at_checked(8 * count) {
        Some((arguments, rest)) => Front::Good {
            kind,
            slot,
            arguments: arguments.as_chunks().0,
            rest,
        },
        None => Front::Unfinished,
    }
}

/// Bytes that end before the slot are bad where no good record begins with them.
fn short_front(bytes: &[u8]) -> Front<'_> {
    let begins = |kind| {
        let header = arguments_of(kind).map(|count| [0, 3 + 8 * count as u8, 1, kind]);
        header.is_some_and(|header| header.starts_with(bytes))
    };
    match (1..=11).any(begins) {
        true => Front::Unfinished,
        false => Front::Bad,
    }
}

/// The text that goes out, in blocks.
struct Text<W> {
    output: W,
    block: Vec<u8>,
}

impl<W: Write> Text<W> {
    fn to(output: W) -> Self {
        let block = Vec::with_capacity(BLOCK);
        Self { output, block }
    }

    fn words(&mut self, words: &str) {
        self.block.extend_from_slice(words.as_bytes());
    }

    fn number(&mut self, mut number: u64) {
        let mut digits = [0; 20];
        let mut first = digits.len();
        loop {
            first -= 1;
            digits[first] = b'0' + (number % 10) as u8;
            number /= 10;
            if number == 0 {
                break;
            }
        }
        self.block.extend_from_slice(&digits[first..]);
    }

    fn answer(&mut self, answer: Answer) -> io::Result<()> {
        if self.block.len() > BLOCK - LONGEST_LINE {
            self.send()?;
        }
        self.number(answer.verdict);
        for value in [answer.v0, answer.v1, answer.v2, answer.v3] {
            self.block.push(b' ');
            self.number(value);
        }
        self.block.push(b'\n');
        Ok(())
    }

    fn send(&mut self) -> io::Result<()> {
        self.output.write_all(&self.block)?;
        self.output.flush()?;
        self.block.clear();
        Ok(())
    }
}

/// A replay: what was answered so far, and whether a bad record ended it.
struct Replay<W> {
    monitor: Monitor,
    text: Text<W>,
    answered: u64,
    bad: bool,
}

impl<W: Write> Replay<W> {
    fn to(output: W) -> Self {
        let mut text = Text::to(output);
        text.words("monitor 1\n");
        Self {
            monitor: Monitor::fresh(),
            text,
            answered: 0,
            bad: false,
        }
    }

    /// Answers the records that are whole. What is left is an unfinished one.
    fn take<'a>(&mut self, mut bytes: &'a [u8]) -> io::Result<&'a [u8]> {
        while !self.bad {
            match front(bytes) {
                Front::Good {
                    kind,
                    slot,
                    arguments,
                    rest,
                } => {
                    let answer = self.monitor.perform(kind, slot.into(), arguments);
                    self.text.answer(answer)?;
                    self.answered += 1;
                    bytes = rest;
                }
                Front::Bad => self.end_reading(),
                Front::Unfinished => return Ok(bytes),
            }
        }
        Ok(&[])
    }

    fn end_reading(&mut self) {
        self.text.words("bad\n");
        self.bad = true;
    }

    fn close(mut self, left: &[u8]) -> io::Result<()> {
        if !left.is_empty() {
            self.end_reading();
        }
        self.text.words("end ");
        self.text.number(self.answered);
        self.text.words("\n");
        self.text.send()
    }
}

fn replay(mut input: impl Read, output: impl Write) -> io::Result<()> {
    let mut replay = Replay::to(output);
    replay.text.send()?;
    let mut buffer = vec![0; LONGEST_RECORD + PIECE];
    let mut held = 0;
    loop {
        let end = match input.read(&mut buffer[held..held + PIECE]) {
            Ok(0) => return replay.close(&buffer[..held]),
            Ok(length) => held + length,
            Err(error) if error.kind() == ErrorKind::Interrupted => continue,
            Err(error) => return Err(error),
        };
        held = replay.take(&buffer[..end])?.len();
        replay.text.send()?;
        buffer.copy_within(end - held..end, 0);
    }
}

fn main() -> ExitCode {
    match replay(io::stdin().lock(), io::stdout().lock()) {
        Ok(()) => ExitCode::SUCCESS,
        Err(error) => {
            eprintln!("plain_replay: {error}");
            ExitCode::FAILURE
        }
    }
}
