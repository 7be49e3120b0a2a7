//! The baseline of the benchmark: the script tool `spool` once more, in plain
//! Rust over two B-trees, one by start and one by length.
//!
//! It reads a script from standard input and writes one reply for each line.

use std::collections::{BTreeMap, BTreeSet};
use std::io::{self, BufRead, BufReader, BufWriter, Write};

const MAX_SIZE: u64 = 67_108_864;
const MAX_EXTENTS: usize = 1_024;
const MAX_WORDS: usize = 4_096;
const MAX_RUN: u64 = 32_768;
const MAX_LINE: usize = 64;
const MAX_DIGITS: usize = 10;
const BUFFER: usize = 64 * 1024;

/// Why a line was refused; the value is the number in the reply.
#[derive(Clone, Copy)]
enum Refusal {
    BadSize = 1,
    BadRange = 2,
    WantsNothing = 4,
    OutsideSlab = 5,
    NoRoom = 6,
    AlreadyFree = 7,
    TooManyExtents = 8,
    LogFull = 9,
    BadLine = 12,
}

enum Command {
    Size(u64),
    Allocate(u64),
    Free(u64, u64),
    Condense,
    Figures,
    Reopen,
}

enum Reply {
    Done,
    At(u64),
    Words(usize),
    Figures { free: u64, extents: usize, longest: u64, words: usize },
}

/// Takes one space and the number after it off the front of `text`.
fn number(text: &[u8]) -> Option<(u64, &[u8])> {
    let text = text.strip_prefix(b" ")?;
    let digits = text.iter().take_while(|byte| byte.is_ascii_digit()).count();
    if digits == 0 || digits > MAX_DIGITS {
        return None;
    }
    let (digits, rest) = text.split_at(digits);
    let value = digits.iter().fold(0, |value, digit| value * 10 + u64::from(digit - b'0'));
    Some((value, rest))
}

/// Reads a line without its line feed; `None` if it is against the form.
fn parse(line: &[u8]) -> Option<Command> {
    if line.len() > MAX_LINE {
        return None;
    }
    let (letter, rest) = line.split_first()?;
    let (command, rest) = match letter {
        b's' => {
            let (size, rest) = number(rest)?;
            (Command::Size(size), rest)
        }
        b'a' => {
            let (want, rest) = number(rest)?;
            (Command::Allocate(want), rest)
        }
        b'f' => {
            let (start, rest) = number(rest)?;
            let (length, rest) = number(rest)?;
            (Command::Free(start, length), rest)
        }
        b'c' => (Command::Condense, rest),
        b'q' => (Command::Figures, rest),
        b'r' => (Command::Reopen, rest),
        _ => return None,
    };
    rest.is_empty().then_some(command)
}

/// The free extents of a slab, by start and by length.
struct Extents {
    by_start: BTreeMap<u64, u64>,
    by_length: BTreeSet<(u64, u64)>,
    sectors: u64,
}

impl Extents {
    fn all_free(size: u64) -> Self {
        Extents {
            by_start: BTreeMap::from([(0, size)]),
            by_length: BTreeSet::from([(size, 0)]),
            sectors: size,
        }
    }

    /// The shortest extent of at least `want` sectors, the lowest of equals.
    fn best_fit(&self, want: u64) -> Option<(u64, u64)> {
        let &(length, start) = self.by_length.range((want, 0)..).next()?;
        Some((start, length))
    }

    fn longest(&self) -> u64 {
        self.by_length.last().map_or(0, |&(length, _)| length)
    }

    /// Cuts `length` sectors at `start` out of the extent that holds them.
    fn cut(&mut self, extent: (u64, u64), start: u64, length: u64) {
        let (extent_start, extent_length) = extent;
        let before = start - extent_start;
        let after = extent_length - before - length;
        self.by_length.remove(&(extent_length, extent_start));
        if before == 0 {
            self.by_start.remove(&extent_start);
        } else {
            self.by_start.insert(extent_start, before);
            self.by_length.insert((before, extent_start));
        }
        if after != 0 {
            self.by_start.insert(start + length, after);
            self.by_length.insert((after, start + length));
        }
        self.sectors -= length;
    }

    /// The free neighbours on the left and on the right of sectors in use;
    /// `None` if one of the sectors is free.
    fn neighbours(&self, start: u64, length: u64) -> Option<Neighbours> {
        let end = start + length;
        let mut upto_end = self.by_start.range(..=end).map(|(&start, &length)| (start, length));
        let mut last = upto_end.next_back();
        let right = last.filter(|&(start, _)| start == end);
        if right.is_some() {
            last = upto_end.next_back();
        }
        match last {
            Some((left, length)) if left + length > start => None,
            Some((left, length)) if left + length == start => {
                Some(Neighbours { left: Some((left, length)), right })
            }
            _ => Some(Neighbours { left: None, right }),
        }
    }

    /// Joins sectors in use and their free neighbours to one free extent.
    fn join(&mut self, start: u64, length: u64, neighbours: Neighbours) {
        let (mut joined_start, mut joined_length) = (start, length);
        if let Some((left, left_length)) = neighbours.left {
            self.by_length.remove(&(left_length, left));
            joined_start = left;
            joined_length += left_length;
        }
        if let Some((right, right_length)) = neighbours.right {
            self.by_start.remove(&right);
            self.by_length.remove(&(right_length, right));
            joined_length += right_length;
        }
        self.by_start.insert(joined_start, joined_length);
        self.by_length.insert((joined_length, joined_start));
        self.sectors += length;
    }
}

struct Neighbours {
    left: Option<(u64, u64)>,
    right: Option<(u64, u64)>,
}

impl Neighbours {
    fn count(&self) -> usize {
        usize::from(self.left.is_some()) + usize::from(self.right.is_some())
    }
}

/// The log: a word is offset << 16 | type << 15 | (run - 1).
struct Log {
    words: Vec<u64>,
}

#[derive(Clone, Copy)]
enum Kind {
    Allocate = 0,
    Free = 1,
}

impl Log {
    fn has_room(&self, length: u64) -> bool {
        length.div_ceil(MAX_RUN) <= (MAX_WORDS - self.words.len()) as u64
    }

    fn push(&mut self, kind: Kind, mut start: u64, mut length: u64) {
        while length > 0 {
            let run = length.min(MAX_RUN);
            self.words.push(start << 16 | (kind as u64) << 15 | (run - 1));
            start += run;
            length -= run;
        }
    }
}

fn entry(word: u64) -> (Kind, u64, u64) {
    let kind = if word >> 15 & 1 == 0 { Kind::Allocate } else { Kind::Free };
    (kind, word >> 16, (word & (MAX_RUN - 1)) + 1)
}

struct Slab {
    size: u64,
    extents: Extents,
    log: Log,
}

impl Slab {
    fn new(size: u64) -> Result<Self, Refusal> {
        if size == 0 || size > MAX_SIZE {
            return Err(Refusal::BadSize);
        }
        Ok(Slab {
            size,
            extents: Extents::all_free(size),
            log: Log { words: Vec::with_capacity(MAX_WORDS) },
        })
    }

    fn allocate(&mut self, want: u64) -> Result<u64, Refusal> {
        if want == 0 {
            return Err(Refusal::WantsNothing);
        }
        let extent = self.extents.best_fit(want).ok_or(Refusal::NoRoom)?;
        if !self.log.has_room(want) {
            return Err(Refusal::LogFull);
        }
        let start = extent.0;
        self.extents.cut(extent, start, want);
        self.log.push(Kind::Allocate, start, want);
        Ok(start)
    }

    fn free(&mut self, start: u64, length: u64) -> Result<(), Refusal> {
        if length == 0 || start + length > MAX_SIZE {
            return Err(Refusal::BadRange);
        }
        if start + length > self.size {
            return Err(Refusal::OutsideSlab);
        }
        let neighbours = self.extents.neighbours(start, length).ok_or(Refusal::AlreadyFree)?;
        if self.extents.by_start.len() + 1 - neighbours.count() >= MAX_EXTENTS {
            return Err(Refusal::TooManyExtents);
        }
        if !self.log.has_room(length) {
            return Err(Refusal::LogFull);
        }
        self.extents.join(start, length, neighbours);
        self.log.push(Kind::Free, start, length);
        Ok(())
    }

    fn condense(&mut self) -> Result<usize, Refusal> {
        if self.extents.by_start.len() >= MAX_EXTENTS {
            return Err(Refusal::TooManyExtents);
        }
        self.log.words.clear();
        let mut used = 0;
        for (&start, &length) in &self.extents.by_start {
            self.log.push(Kind::Allocate, used, start - used);
            used = start + length;
        }
        self.log.push(Kind::Allocate, used, self.size - used);
        Ok(self.log.words.len())
    }

    /// Forgets the extents and replays the log over an all-free slab.
    fn reopen(&mut self) {
        self.extents = Extents::all_free(self.size);
        for &word in &self.log.words {
            let (kind, start, length) = entry(word);
            match kind {
                Kind::Allocate => {
                    let held = self.extents.by_start.range(..=start).next_back();
                    let (&held_start, &held_length) = held.expect("a run in the log is free");
                    self.extents.cut((held_start, held_length), start, length);
                }
                Kind::Free => {
                    let neighbours = self.extents.neighbours(start, length);
                    self.extents.join(start, length, neighbours.expect("a run in the log is used"));
                }
            }
        }
    }

    fn execute(&mut self, command: Command) -> Result<Reply, Refusal> {
        match command {
            Command::Size(_) => Err(Refusal::BadLine),
            Command::Allocate(want) => self.allocate(want).map(Reply::At),
            Command::Free(start, length) => self.free(start, length).map(|()| Reply::Done),
            Command::Condense => self.condense().map(Reply::Words),
            Command::Figures => Ok(Reply::Figures {
                free: self.extents.sectors,
                extents: self.extents.by_start.len(),
                longest: self.extents.longest(),
                words: self.log.words.len(),
            }),
            Command::Reopen => {
                self.reopen();
                Ok(Reply::Done)
            }
        }
    }
}

fn write_reply(output: &mut impl Write, reply: Result<Reply, Refusal>) -> io::Result<()> {
    match reply {
        Ok(Reply::Done) => output.write_all(b"ok\n"),
        Ok(Reply::At(start)) => writeln!(output, "at {start}"),
        Ok(Reply::Words(count)) => writeln!(output, "words {count}"),
        Ok(Reply::Figures { free, extents, longest, words }) => {
            writeln!(output, "free {free} extents {extents} longest {longest} words {words}")
        }
        Err(refusal) => writeln!(output, "no {}", refusal as u8),
    }
}

fn main() -> io::Result<()> {
    let mut input = BufReader::with_capacity(BUFFER, io::stdin().lock());
    let mut output = BufWriter::with_capacity(BUFFER, io::stdout().lock());
    let mut line = Vec::with_capacity(MAX_LINE + 1);
    let mut first = true;
    let mut slab = None;
    loop {
        line.clear();
        if input.read_until(b'\n', &mut line)? == 0 {
            break;
        }
        let command = parse(line.strip_suffix(b"\n").unwrap_or(&line));
        let reply = match (command, &mut slab) {
            (Some(command), Some(slab)) => Slab::execute(slab, command),
            (Some(Command::Size(size)), None) if first => Slab::new(size).map(|made| {
                slab = Some(made);
                Reply::Done
            }),
            _ => Err(Refusal::BadLine),
        };
        first = false;
        write_reply(&mut output, reply)?;
    }
    output.flush()
}
