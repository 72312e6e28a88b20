//! A load for an RTMP server, one publisher and many players, and what it measures. `bench/load --help` tells its words.
//!
//! Each unit's body has the unit's number and the publisher's clock as hexadecimal digits, and is then filled from a table at a
//! place that its number gives. So a player knows what should come, whether it is whole, and how long it was under way. A player
//! looks at the chunks' headers, at the head of each body and at the last bytes of each piece, and passes over the rest.

use std::collections::HashSet;
use std::fs;
use std::io::{BufRead, BufReader, ErrorKind, Read, Write};
use std::net::{Shutdown, SocketAddr, TcpStream};
use std::os::fd::AsRawFd;
use std::process::{exit, Child, Command, Stdio};
use std::sync::atomic::{AtomicBool, AtomicU64, AtomicUsize, Ordering::Relaxed};
use std::sync::{Arc, Mutex};
use std::thread;
use std::time::{Duration, Instant};

const HELP: &str = "\
bench/load --serve RELAY [WORD..]       starts 'RELAY serve' with a configuration of its own, on a port that the system chooses
bench/load --to HOST:PORT [WORD..]      takes a server that runs

One publisher sends a broadcast in real time: 25 pictures a second, of which one is a keyframe, and AAC. N players pull it, and
come while it runs. When each has its first unit, and a second later, the measured time begins.

  --players N      players that keep up (10; 0 to 250)
  --http N         as many more, which pull over HTTP (none; 0 to 250)
  --slow PERCENT   one player more, which reads at that share of the broadcast's rate (none; 1 to 99)
  --seconds S      measured time (10; 1 to 3600)
  --mbit M         the broadcast's rate in Mbit/s (4; 0.2 to 20)
  --ahead N        once all players have a unit, not in real time but as fast as the slowest of them takes it, at most N units
                   ahead of it, for at most 5 s (in real time; 1 to 1000)
  --chunk N        the publisher's chunk size (4096; 128 to 65536)
  --threads N      threads of the players (2; 1 to 16)
  --compare        compare every byte of the bodies
with --serve:
  --workers N      threads of the server (2; 1 to 16)
  --ring BYTES     the window of its stream (2097152; 1048640 to 268435456)
with --to:
  --http-at HOST:PORT  where it listens for players over HTTP
  --publish-at HOST:PORT  another server, to which the publisher goes: the origin of one that is an edge
  --app A --name B the stream (live, load); B may have a key, as in cam?s3cret
  --pid P[,P..]    the processes of the server, whose processor time is told

It tells how long units were under way from the publisher's call to the player's (median, 99th percentile, greatest, over all that
keep up, of units that were sent in the measured time), what was delivered, and the server's processor time. Of each player it
tests that the configurations come first, that units come in order from a keyframe on, whole and with their time, and that none is
missing; of the slow one, that it goes on at a keyframe after each skip.

On a machine that other work keeps busy, 'chrt -f 1 bench/load ..' runs it and the relay that it starts before all other work; else
the times are those of the system's turns.

Status: 0 where all of that held, 1 where it didn't, 2 for wrong words, 3 where there was nothing to measure.
";

// ---------------------------------------------------------------------------------------------------------------- the words

struct Words {
    serve: Option<String>,
    to: Option<String>,
    players: usize,
    http: usize,
    http_at: Option<String>,
    publish_at: Option<String>,
    slow: Option<u64>,
    seconds: u64,
    mbit: f64,
    ahead: Option<u64>,
    chunk: usize,
    threads: usize,
    compare: bool,
    workers: usize,
    ring: u64,
    app: String,
    name: String,
    pids: Vec<u32>,
}

fn wrong(what: &str) -> ! {
    eprintln!("load: {what}; bench/load --help tells the words");
    exit(2)
}

fn number<T: std::str::FromStr + PartialOrd>(word: &str, text: &str, least: T, most: T) -> T {
    match text.parse::<T>() {
        Ok(n) if least <= n && n <= most => n,
        _ => wrong(&format!("{word} {text} isn't in its range")),
    }
}

impl Words {
    fn read() -> Words {
        let mut words = Words {
            serve: None,
            to: None,
            players: 10,
            http: 0,
            http_at: None,
            publish_at: None,
            slow: None,
            seconds: 10,
            mbit: 4.0,
            ahead: None,
            chunk: 4096,
            threads: 2,
            compare: false,
            workers: 2,
            ring: 2_097_152,
            app: "live".into(),
            name: "load".into(),
            pids: Vec::new(),
        };
        let mut args = std::env::args().skip(1);
        while let Some(word) = args.next() {
            match word.as_str() {
                "--help" | "-h" => {
                    print!("{HELP}");
                    exit(0)
                }
                "--compare" => {
                    words.compare = true;
                    continue;
                }
                _ => (),
            }
            let text = args.next().unwrap_or_else(|| wrong(&format!("{word} is unknown or lacks its value")));
            match word.as_str() {
                "--serve" => words.serve = Some(text),
                "--to" => words.to = Some(text),
                "--players" => words.players = number(&word, &text, 0, 250),
                "--http" => words.http = number(&word, &text, 0, 250),
                "--http-at" => words.http_at = Some(text),
                "--publish-at" => words.publish_at = Some(text),
                "--slow" => words.slow = Some(number(&word, &text, 1, 99)),
                "--seconds" => words.seconds = number(&word, &text, 1, 3600),
                "--mbit" => words.mbit = number(&word, &text, 0.2, 20.0),
                "--ahead" => words.ahead = Some(number(&word, &text, 1, 1000)),
                "--chunk" => words.chunk = number(&word, &text, 128, 65_536),
                "--threads" => words.threads = number(&word, &text, 1, 16),
                "--workers" => words.workers = number(&word, &text, 1, 16),
                "--ring" => words.ring = number(&word, &text, 1_048_640, 268_435_456),
                "--app" => words.app = text,
                "--name" => words.name = text,
                "--pid" => words.pids = text.split(',').map(|p| number(&word, p, 1, u32::MAX)).collect(),
                _ => wrong(&format!("{word} is unknown")),
            }
        }
        if words.serve.is_some() == words.to.is_some() {
            wrong("one of --serve and --to is needed")
        }
        if words.links() == 1 {
            wrong("--players 0 needs --slow or --http")
        }
        if words.links() > 252 {
            wrong("there are at most 250 players in all, and a slow one")
        }
        if words.publish_at.is_some() && words.to.is_none() {
            wrong("--publish-at goes with --to")
        }
        if words.to.is_some() && words.http > 0 && words.http_at.is_none() {
            wrong("--http needs --http-at")
        }
        if words.ahead.is_some() && (words.keeping() == 0 || words.seconds > 5) {
            wrong("--ahead needs players, and takes at most 5 s")
        }
        words
    }

    /// All players that keep up.
    fn keeping(&self) -> usize {
        self.players + self.http
    }

    /// How many seconds of the broadcast are planned. With --ahead it runs faster than it plays.
    fn planned(&self) -> u64 {
        match self.ahead {
            Some(_) => 60 + 2000 * (self.seconds + 2),
            None => 60 + self.seconds,
        }
    }

    /// All connections: the publisher's and the players'.
    fn links(&self) -> usize {
        1 + self.keeping() + usize::from(self.slow.is_some())
    }

    fn bytes_a_second(&self) -> f64 {
        self.mbit * 1e6 / 8.0
    }
}

// ------------------------------------------------------------------------------------------------------------ the broadcast

#[derive(Clone, Copy, PartialEq)]
enum Kind {
    Key,
    Inter,
    Audio,
}

#[derive(Clone, Copy)]
struct Unit {
    kind: Kind,
    /// In milliseconds.
    time: u32,
    /// Of the whole body.
    length: usize,
}

const PICTURES: u64 = 25;
const SAMPLES: u64 = 44_100;
const SAMPLES_A_FRAME: u64 = 1024;
const AUDIO_LENGTH: usize = 372;
/// A keyframe has so many times the bytes of an inter frame's mean.
const KEY_WEIGHT: f64 = 6.0;

/// All units of so many seconds, in order of their times.
fn plan(seconds: u64, bytes_a_second: f64) -> Vec<Unit> {
    let sound = SAMPLES as f64 / SAMPLES_A_FRAME as f64 * AUDIO_LENGTH as f64;
    let mean = (bytes_a_second - sound).max(4000.0) / (KEY_WEIGHT + PICTURES as f64 - 1.0);
    let mut dice = Dice(1);
    let pictures = (0..seconds * PICTURES).map(|i| {
        let (kind, length) = match i % PICTURES {
            0 => (Kind::Key, KEY_WEIGHT * mean),
            _ => (Kind::Inter, mean * (0.5 + dice.roll() as f64 / u64::MAX as f64)),
        };
        Unit { kind, time: (i * 1000 / PICTURES) as u32, length: (length as usize).max(2 * HEAD) }
    });
    let mut units: Vec<Unit> = pictures.collect();
    units.extend((0..seconds * SAMPLES / SAMPLES_A_FRAME).map(|i| Unit {
        kind: Kind::Audio,
        time: (i * SAMPLES_A_FRAME * 1000 / SAMPLES) as u32,
        length: AUDIO_LENGTH,
    }));
    units.sort_by_key(|unit| unit.time);
    units
}

/// A small generator of numbers that look random (xorshift64*).
struct Dice(u64);

impl Dice {
    fn roll(&mut self) -> u64 {
        self.0 ^= self.0 >> 12;
        self.0 ^= self.0 << 25;
        self.0 ^= self.0 >> 27;
        self.0.wrapping_mul(0x2545_F491_4F6C_DD1D)
    }
}

/// What bodies are filled from. No byte is less than 4, so the NAL units are clean.
struct Filler(Vec<u8>);

impl Filler {
    const STARTS: u64 = 512 * 1024;

    fn new() -> Filler {
        let mut dice = Dice(7);
        Filler((0..2 * Self::STARTS).map(|_| 4 + (dice.roll() >> 40) as u8 % 250).collect())
    }

    /// What stands in the body of that unit from `at` on.
    fn of(&self, unit: u64, at: usize, length: usize) -> &[u8] {
        let start = (unit * 4099 % Self::STARTS) as usize + at;
        &self.0[start..start + length]
    }
}

/// A body begins with the tag's bytes, for a picture also the length and first byte of its NAL unit, and 32 digits.
const HEAD: usize = 42;
const DIGITS: usize = 32;

fn opening(unit: &Unit) -> Vec<u8> {
    let nal = |tag: u8, first: u8| {
        let mut head = vec![tag, 1, 0, 0, 0];
        head.extend(((unit.length - 9) as u32).to_be_bytes());
        head.push(first);
        head
    };
    match unit.kind {
        Kind::Key => nal(0x17, 0x65),
        Kind::Inter => nal(0x27, 0x41),
        Kind::Audio => vec![0xAF, 1],
    }
}

fn body_of(number: u64, unit: &Unit, clock: u64, filler: &Filler) -> Vec<u8> {
    let mut body = opening(unit);
    body.extend(format!("{number:016x}{clock:016x}").bytes());
    body.extend(filler.of(number, body.len(), unit.length - body.len()));
    body
}

/// The kind, number and clock that a body's first bytes tell.
fn read_head(head: &[u8]) -> Option<(Kind, u64, u64)> {
    let (kind, from) = match head.first()? {
        0x17 => (Kind::Key, 10),
        0x27 => (Kind::Inter, 10),
        0xAF => (Kind::Audio, 2),
        _ => return None,
    };
    let digits = std::str::from_utf8(head.get(from..from + DIGITS)?).ok()?;
    Some((kind, u64::from_str_radix(&digits[..16], 16).ok()?, u64::from_str_radix(&digits[16..], 16).ok()?))
}

/// The configurations: of pictures of 320 by 180, and of AAC of 44,100 samples a second in stereo.
#[rustfmt::skip]
const VIDEO_CONFIGURATION: [u8; 45] = [
    0x17, 0, 0, 0, 0, 1, 0x4D, 0x40, 0x0D, 0xFF, 0xE1, 0, 0x19, 0x67, 0x4D, 0x40, 0x0D, 0xEC, 0xA0, 0xA0, 0xCF, 0xCF, 0x80, 0x88, 0, 0, 3, 0, 8, 0,
    0, 3, 1, 0x90, 0x78, 0xA1, 0x4C, 0xB0, 1, 0, 4, 0x68, 0xEF, 0xBC, 0x80,
];
const AUDIO_CONFIGURATION: [u8; 4] = [0xAF, 0, 0x12, 0x10];

// ------------------------------------------------------------------------------------------------------- values and messages

fn text(words: &str) -> Vec<u8> {
    let mut out = vec![2];
    key(&mut out, words);
    out
}

fn key(out: &mut Vec<u8>, words: &str) {
    out.extend((words.len() as u16).to_be_bytes());
    out.extend(words.bytes());
}

fn real(number: f64) -> Vec<u8> {
    let mut out = vec![0];
    out.extend(number.to_be_bytes());
    out
}

fn pairs(out: &mut Vec<u8>, all: &[(&str, Vec<u8>)]) {
    for (name, value) in all {
        key(out, name);
        out.extend(value);
    }
    out.extend([0, 0, 9]);
}

const NULL: u8 = 5;

fn metadata(words: &Words) -> Vec<u8> {
    let mut out = [text("@setDataFrame"), text("onMetaData"), vec![8, 0, 0, 0, 5]].concat();
    pairs(
        &mut out,
        &[
            ("width", real(320.0)),
            ("height", real(180.0)),
            ("framerate", real(PICTURES as f64)),
            ("videodatarate", real(words.mbit * 1000.0)),
            ("audiosamplerate", real(SAMPLES as f64)),
        ],
    );
    out
}

/// A message on a chunk stream: its header in full, and further chunks without one.
fn put(out: &mut Vec<u8>, id: u8, kind: u8, stream: u32, time: u32, body: &[u8], chunk: usize) {
    out.push(id);
    out.extend(&time.to_be_bytes()[1..]);
    out.extend(&(body.len() as u32).to_be_bytes()[1..]);
    out.push(kind);
    out.extend(stream.to_le_bytes());
    for (i, piece) in body.chunks(chunk).enumerate() {
        if i > 0 {
            out.push(0xC0 | id);
        }
        out.extend(piece);
    }
}

/// What a reader keeps of one chunk stream.
#[derive(Clone, Default)]
struct Kept {
    time: u32,
    delta: u32,
    length: usize,
    kind: u8,
    stream: u32,
    extended: bool,
    /// Of the message in progress: bytes that came, its first bytes, and whether the bytes after them are as they should be.
    got: usize,
    head: Vec<u8>,
    number: Option<u64>,
    good: bool,
}

struct Message<'a> {
    kind: u8,
    time: u32,
    length: usize,
    head: &'a [u8],
    /// Whether the bytes that were looked at are those of its unit.
    good: bool,
}

/// Reads chunks. Bodies aren't kept, but for their first bytes.
struct ChunkReader {
    size: usize,
    header: Vec<u8>,
    /// The chunk stream whose payload is read, and how many of its bytes are to come.
    payload: Option<(usize, usize)>,
    ids: Vec<Kept>,
    compare: bool,
}

/// So much of a body that isn't media is kept.
const SMALL: usize = 1024;
/// So many bytes at the end of each piece of a body are compared.
const LOOK: usize = 16;

impl ChunkReader {
    fn new(compare: bool) -> ChunkReader {
        ChunkReader { size: 128, header: Vec::new(), payload: None, ids: Vec::new(), compare }
    }

    /// Reads on, and tells each message that is complete.
    fn feed(&mut self, mut bytes: &[u8], filler: &Filler, mut tell: impl FnMut(Message)) -> Result<(), String> {
        loop {
            let Some((id, left)) = self.payload else {
                let Some((&first, rest)) = bytes.split_first() else { return Ok(()) };
                bytes = rest;
                self.header.push(first);
                self.begin_chunk()?;
                continue;
            };
            let compare = self.compare;
            let kept = &mut self.ids[id];
            let (piece, rest) = bytes.split_at(left.min(bytes.len()));
            kept.take(piece, filler, compare);
            bytes = rest;
            if piece.len() < left {
                self.payload = Some((id, left - piece.len()));
                return Ok(());
            }
            self.payload = None;
            if kept.got == kept.length {
                if kept.kind == 1 && kept.head.len() >= 4 {
                    self.size = u32::from_be_bytes([kept.head[0] & 0x7F, kept.head[1], kept.head[2], kept.head[3]]).max(1) as usize;
                }
                tell(kept.message());
                kept.got = 0;
            }
        }
    }

    /// Where the header is complete, takes it.
    fn begin_chunk(&mut self) -> Result<(), String> {
        let head = &self.header;
        let basic = match head[0] & 0x3F {
            0 => 2,
            1 => 3,
            _ => 1,
        };
        if head.len() < basic {
            return Ok(());
        }
        let id = match basic {
            2 => head[1] as usize + 64,
            3 => head[2] as usize * 256 + head[1] as usize + 64,
            _ => (head[0] & 0x3F) as usize,
        };
        if self.ids.len() <= id {
            self.ids.resize(id + 1, Kept::default());
        }
        let format = head[0] >> 6;
        let fields = [11, 7, 3, 0][format as usize];
        if head.len() < basic + fields {
            return Ok(());
        }
        let field = &head[basic..basic + fields];
        let three = |at: usize| u32::from_be_bytes([0, field[at], field[at + 1], field[at + 2]]);
        let extended = if format == 3 { self.ids[id].extended } else { three(0) == 0xFF_FFFF };
        let whole = basic + fields + if extended { 4 } else { 0 };
        if head.len() < whole {
            return Ok(());
        }
        let time = match (format, extended) {
            (3, _) => 0,
            (_, true) => u32::from_be_bytes([head[whole - 4], head[whole - 3], head[whole - 2], head[whole - 1]]),
            _ => three(0),
        };
        let kept = &mut self.ids[id];
        if format < 3 && kept.got > 0 {
            return Err("a message was broken off".into());
        }
        kept.extended = extended;
        if format < 2 {
            kept.length = three(3) as usize;
            kept.kind = field[6];
        }
        if format == 0 {
            kept.stream = u32::from_le_bytes([field[7], field[8], field[9], field[10]]);
        }
        if format < 3 {
            kept.delta = time;
        }
        if kept.got == 0 {
            kept.time = if format == 0 { time } else { kept.time.wrapping_add(kept.delta) };
            kept.head.clear();
            kept.number = None;
            kept.good = true;
        }
        self.payload = Some((id, self.size.min(kept.length - kept.got)));
        self.header.clear();
        Ok(())
    }
}

impl Kept {
    fn message(&self) -> Message<'_> {
        Message { kind: self.kind, time: self.time, length: self.length, head: &self.head, good: self.good }
    }

    /// Takes a piece of the body: keeps what belongs to its first bytes, and looks at the rest.
    fn take(&mut self, piece: &[u8], filler: &Filler, compare: bool) {
        let media = matches!(self.kind, 8 | 9);
        let wanted = if media { HEAD } else { SMALL };
        let (first, rest) = piece.split_at(piece.len().min(wanted.saturating_sub(self.got)));
        self.head.extend(first);
        self.got += piece.len();
        if !media || rest.is_empty() {
            return;
        }
        if self.number.is_none() {
            self.number = read_head(&self.head).map(|(_, number, _)| number);
        }
        let Some(number) = self.number else { return };
        let look = if compare { rest } else { &rest[rest.len().saturating_sub(LOOK)..] };
        self.good &= self.got <= Filler::STARTS as usize && filler.of(number, self.got - look.len(), look.len()) == look;
    }
}

/// The parts of an answer over HTTP.
#[derive(Clone, Copy, PartialEq)]
enum Part {
    /// Its head, up to an empty line.
    Answer,
    /// What an FLV begins with.
    Opening,
    TagHead,
    Body,
    /// The length of the tag, behind it.
    Back,
}

/// Reads an answer over HTTP whose content is an FLV. Bodies aren't kept, but for their first bytes.
struct TagReader {
    part: Part,
    /// What came of the part in progress, if it is no body.
    taken: Vec<u8>,
    tag: Kept,
    compare: bool,
}

impl TagReader {
    fn new(compare: bool) -> TagReader {
        TagReader { part: Part::Answer, taken: Vec::new(), tag: Kept::default(), compare }
    }

    /// Reads on, and tells each tag whose body is complete.
    fn feed(&mut self, mut bytes: &[u8], filler: &Filler, mut tell: impl FnMut(Message)) -> Result<(), String> {
        while !bytes.is_empty() {
            let (piece, rest) = bytes.split_at(bytes.len().min(self.lacks()));
            bytes = rest;
            if self.part == Part::Body {
                self.tag.take(piece, filler, self.compare);
            } else {
                self.taken.extend(piece);
            }
            if self.lacks() > 0 {
                continue;
            }
            if self.part == Part::Body {
                tell(self.tag.message());
            }
            self.part = self.next_part()?;
        }
        Ok(())
    }

    /// How many bytes the part in progress lacks. Of the answer's head that isn't known: one.
    fn lacks(&self) -> usize {
        match self.part {
            Part::Answer => usize::from(!self.taken.ends_with(b"\r\n\r\n")),
            Part::Opening => 13 - self.taken.len(),
            Part::TagHead => 11 - self.taken.len(),
            Part::Body => self.tag.length - self.tag.got,
            Part::Back => 4 - self.taken.len(),
        }
    }

    /// Takes the part that is complete, and tells which follows.
    fn next_part(&mut self) -> Result<Part, String> {
        let taken = std::mem::take(&mut self.taken);
        let number = |bytes: [u8; 4]| u32::from_be_bytes(bytes);
        match self.part {
            Part::Answer if taken.starts_with(b"HTTP/1.1 200 OK\r\n") => Ok(Part::Opening),
            Part::Answer => Err(format!("the server answered {}", String::from_utf8_lossy(&taken).lines().next().unwrap_or_default())),
            Part::Opening if taken.starts_with(b"FLV\x01") => Ok(Part::TagHead),
            Part::Opening => Err("what the server answered is no FLV".into()),
            Part::TagHead => {
                let length = number([0, taken[1], taken[2], taken[3]]) as usize;
                let time = number([taken[7], taken[4], taken[5], taken[6]]);
                self.tag = Kept { kind: taken[0], length, time, good: true, ..Kept::default() };
                Ok(Part::Body)
            }
            Part::Body => Ok(Part::Back),
            Part::Back if number([taken[0], taken[1], taken[2], taken[3]]) as usize == 11 + self.tag.length => Ok(Part::TagHead),
            Part::Back => Err("a tag isn't as long as stands behind it".into()),
        }
    }
}

enum Reader {
    Chunks(ChunkReader),
    Tags(TagReader),
}

impl Reader {
    fn feed(&mut self, bytes: &[u8], filler: &Filler, tell: impl FnMut(Message)) -> Result<(), String> {
        match self {
            Reader::Chunks(reader) => reader.feed(bytes, filler, tell),
            Reader::Tags(reader) => reader.feed(bytes, filler, tell),
        }
    }
}

// ------------------------------------------------------------------------------------------------------------------ the run

/// What all threads know of one run.
struct Run {
    words: Words,
    address: SocketAddr,
    /// Where players over HTTP come.
    http: SocketAddr,
    /// Where the publisher comes.
    origin: SocketAddr,
    units: Vec<Unit>,
    filler: Filler,
    birth: Instant,
    /// The measured time, in nanoseconds since `birth`.
    from: AtomicU64,
    until: AtomicU64,
    published: AtomicU64,
    playing: AtomicUsize,
    /// The number of the unit that each player that keeps up should get next.
    nexts: Vec<AtomicU64>,
    delivered: AtomicU64,
    publisher_ends: AtomicBool,
    players_end: AtomicBool,
    fault: Mutex<Option<String>>,
}

impl Run {
    fn clock(&self) -> u64 {
        self.birth.elapsed().as_nanos() as u64
    }

    fn is_measured(&self, clock: u64) -> bool {
        self.from.load(Relaxed) <= clock && clock < self.until.load(Relaxed)
    }

    /// Waits until the unit is at most so far ahead of what the slowest player has, or all is over.
    fn let_come(&self, number: u64, ahead: u64) {
        let has = || self.nexts.iter().map(|next| next.load(Relaxed)).min().unwrap_or(number);
        while number >= has() + ahead && !self.publisher_ends.load(Relaxed) {
            thread::sleep(Duration::from_micros(20));
        }
    }

    fn fails(&self, what: String) {
        self.fault.lock().unwrap().get_or_insert(what);
        self.publisher_ends.store(true, Relaxed);
        self.players_end.store(true, Relaxed);
    }
}

#[derive(Clone, Copy, PartialEq)]
enum Role {
    Publishes,
    Plays,
    PlaysOverHttp,
}

#[derive(Clone, Copy, PartialEq)]
enum Stage {
    Shakes,
    Asks,
    Runs,
    Over,
}

/// What a link of RTMP begins with.
fn greeting(run: &Run) -> Vec<u8> {
    let mut hello = vec![3, 0, 0, 0, 0, 0, 0, 0, 0];
    hello.extend(run.filler.of(0, 0, 1528));
    hello
}

/// What a player over HTTP asks.
fn request(run: &Run) -> Vec<u8> {
    let name = &run.words.name;
    let (name, key) = name.split_at(name.find('?').unwrap_or(name.len()));
    format!("GET /{}/{name}.flv{key} HTTP/1.1\r\nHost: {}\r\nUser-Agent: load\r\nAccept: */*\r\n\r\n", run.words.app, run.http).into_bytes()
}

/// One connection, and how far its dialogue is.
struct Peer {
    link: TcpStream,
    role: Role,
    stage: Stage,
    shake: Vec<u8>,
    reader: Reader,
    /// The message stream that createStream gave.
    stream: u32,
    /// Bytes received, at the last acknowledgement, and after how many one is due.
    received: u64,
    acknowledged: u64,
    window: u64,
}

impl Peer {
    const SHAKE: usize = 1 + 2 * 1536;

    fn new(run: &Run, role: Role) -> Result<Peer, String> {
        let (address, stage, reader, hello) = match role {
            Role::PlaysOverHttp => (run.http, Stage::Runs, Reader::Tags(TagReader::new(run.words.compare)), request(run)),
            Role::Publishes => (run.origin, Stage::Shakes, Reader::Chunks(ChunkReader::new(run.words.compare)), greeting(run)),
            _ => (run.address, Stage::Shakes, Reader::Chunks(ChunkReader::new(run.words.compare)), greeting(run)),
        };
        let link = TcpStream::connect(address).map_err(|e| format!("{address}: {e}"))?;
        link.set_nodelay(true).and_then(|_| link.set_nonblocking(true)).map_err(|e| e.to_string())?;
        let peer = Peer {
            link,
            role,
            stage,
            shake: Vec::new(),
            reader,
            stream: 0,
            received: 0,
            acknowledged: 0,
            window: 2_500_000,
        };
        peer.send(&hello)?;
        Ok(peer)
    }

    /// Sends all, and waits where the link takes nothing.
    fn send(&self, mut bytes: &[u8]) -> Result<(), String> {
        while !bytes.is_empty() {
            match (&self.link).write(bytes) {
                Ok(n) => bytes = &bytes[n..],
                Err(e) if e.kind() == ErrorKind::WouldBlock => {
                    if wait(&mut [Watch { fd: self.link.as_raw_fd(), events: OUT, found: 0 }], 5000) == 0 {
                        return Err("the server took nothing for 5 s".into());
                    }
                }
                Err(e) if e.kind() == ErrorKind::Interrupted => (),
                Err(e) => return Err(format!("send: {e}")),
            }
        }
        Ok(())
    }

    fn command(&self, stream: u32, values: &[Vec<u8>], chunk: usize) -> Result<(), String> {
        let mut out = Vec::new();
        put(&mut out, 3, 20, stream, 0, &values.concat(), chunk);
        self.send(&out)
    }

    fn control(&self, kind: u8, body: &[u8]) -> Result<(), String> {
        let mut out = Vec::new();
        put(&mut out, 2, kind, 0, 0, body, 128);
        self.send(&out)
    }

    fn chunk(&self, run: &Run) -> usize {
        if self.role == Role::Publishes {
            run.words.chunk
        } else {
            128
        }
    }

    /// Reads what is there, at most `most` bytes, once. Tells how many came; units go to `sight`.
    fn read(&mut self, run: &Run, room: &mut [u8], sight: &mut Sight) -> Result<usize, String> {
        let came = match self.link.read(room) {
            Ok(0) => {
                let over = self.stage == Stage::Over || run.publisher_ends.load(Relaxed);
                self.stage = Stage::Over;
                return if over { Ok(0) } else { Err("the server closed a connection".into()) };
            }
            Ok(n) => n,
            Err(e) if matches!(e.kind(), ErrorKind::WouldBlock | ErrorKind::Interrupted) => return Ok(0),
            Err(e) => return Err(format!("receive: {e}")),
        };
        let now = run.clock();
        self.received += came as u64;
        if self.role != Role::PlaysOverHttp && self.received - self.acknowledged >= self.window / 2 {
            self.acknowledged = self.received;
            self.control(3, &(self.received as u32).to_be_bytes())?;
        }
        let mut bytes = &room[..came];
        if self.stage == Stage::Shakes {
            let (first, rest) = bytes.split_at(bytes.len().min(Self::SHAKE - self.shake.len()));
            self.shake.extend(first);
            bytes = rest;
            if self.shake.len() < Self::SHAKE {
                return Ok(came);
            }
            self.stage = Stage::Asks;
            self.ask_connect(run)?;
        }
        let mut heard = Vec::new();
        let mut begun = false;
        self.reader.feed(bytes, &run.filler, |message| match message.kind {
            8 | 9 => begun |= sight.see(run, &message, now),
            4 | 5 | 20 => heard.push((message.kind, message.head.to_vec())),
            _ => (),
        })?;
        if begun {
            run.playing.fetch_add(1, Relaxed);
        }
        heard.iter().try_for_each(|(kind, body)| self.hear(run, *kind, body))?;
        Ok(came)
    }

    fn ask_connect(&mut self, run: &Run) -> Result<(), String> {
        self.send(&self.shake[1..1537])?;
        let chunk = self.chunk(run);
        if chunk != 128 {
            self.control(1, &(chunk as u32).to_be_bytes())?;
        }
        let url = format!("rtmp://{}/{}", run.address, run.words.app);
        let mut object = vec![3];
        pairs(&mut object, &[("app", text(&run.words.app)), ("flashVer", text("FMLE/3.0 (compatible; load)")), ("tcUrl", text(&url))]);
        self.command(0, &[text("connect"), real(1.0), object], chunk)
    }

    /// Goes on in the dialogue by a control message or a command.
    fn hear(&mut self, run: &Run, kind: u8, body: &[u8]) -> Result<(), String> {
        let has = |word: &str| body.windows(word.len()).any(|part| part == word.as_bytes());
        match kind {
            4 if body.len() >= 6 && body[..2] == [0, 6] => return self.control(4, &[&[0, 7], &body[2..6]].concat()),
            4 if body.starts_with(&[0, 1]) => self.stage = Stage::Over,
            5 if body.len() >= 4 => self.window = u32::from_be_bytes([body[0], body[1], body[2], body[3]]).max(1000).into(),
            20 if body.starts_with(&text("_error")) => return Err("the server answered _error".into()),
            20 if body.starts_with(&text("_result")) => return self.ask_further(run, &body[text("_result").len()..]),
            20 if has("NetStream.Play.UnpublishNotify") => self.stage = Stage::Over,
            20 if has("NetStream.Publish.Start") || has("NetStream.Play.Start") => self.stage = Stage::Runs,
            20 if has("error") && has("onStatus") => return Err(format!("the server refused: {}", String::from_utf8_lossy(body))),
            _ => (),
        }
        Ok(())
    }

    /// Ends its role, and waits until the server closes too, at most 10 s. So nothing that it sent is lost by a reset.
    fn leave(&mut self, run: &Run, room: &mut [u8]) -> Result<(), String> {
        self.command(0, &[text("deleteStream"), real(4.0), vec![NULL], real(self.stream.into())], self.chunk(run))?;
        self.link.shutdown(Shutdown::Write).map_err(|e| e.to_string())?;
        let end = Instant::now() + Duration::from_secs(10);
        while self.stage != Stage::Over && Instant::now() < end {
            wait(&mut [Watch { fd: self.link.as_raw_fd(), events: IN, found: 0 }], 100);
            self.read(run, room, &mut Sight::default())?;
        }
        Ok(())
    }

    /// What follows the answer to connect (transaction 1) and to createStream (transaction 2).
    fn ask_further(&mut self, run: &Run, answer: &[u8]) -> Result<(), String> {
        let name = &run.words.name;
        let chunk = self.chunk(run);
        if answer.starts_with(&real(1.0)) {
            self.command(0, &[text("createStream"), real(2.0), vec![NULL]], chunk)
        } else if answer.starts_with(&real(2.0)) && answer.len() >= 19 {
            self.stream = f64::from_be_bytes(answer[11..19].try_into().unwrap()) as u32;
            let id = self.stream;
            match self.role {
                Role::Publishes => self.command(id, &[text("publish"), real(3.0), vec![NULL], text(name), text("live")], chunk),
                _ => self.command(id, &[text("play"), real(3.0), vec![NULL], text(name), real(-2000.0)], chunk),
            }
        } else {
            Ok(())
        }
    }
}

// ------------------------------------------------------------------------------------------------------------ the publisher

struct Published {
    units: u64,
    bytes: u64,
    /// By how much a unit was sent later than its time, at most.
    late: Duration,
}

fn publish(run: &Run) -> Result<Published, String> {
    let mut peer = Peer::new(run, Role::Publishes)?;
    let mut room = vec![0; 4096];
    let mut nothing = Sight::default();
    while peer.stage != Stage::Runs {
        if wait(&mut [Watch { fd: peer.link.as_raw_fd(), events: IN, found: 0 }], 5000) == 0 {
            return Err("the server answered the publisher nothing for 5 s".into());
        }
        peer.read(run, &mut room, &mut nothing)?;
    }
    let (chunk, stream) = (run.words.chunk, peer.stream);
    let mut out = Vec::new();
    put(&mut out, 4, 18, stream, 0, &metadata(&run.words), chunk);
    put(&mut out, 6, 9, stream, 0, &VIDEO_CONFIGURATION, chunk);
    put(&mut out, 5, 8, stream, 0, &AUDIO_CONFIGURATION, chunk);
    peer.send(&out)?;
    let begun = Instant::now();
    let mut done = Published { units: 0, bytes: 0, late: Duration::ZERO };
    for (number, unit) in run.units.iter().enumerate() {
        let due = begun + Duration::from_millis(unit.time.into());
        while peer.read(run, &mut room, &mut nothing)? > 0 {}
        match run.words.ahead {
            Some(ahead) if run.playing.load(Relaxed) + 1 == run.words.links() => run.let_come(number as u64, ahead),
            _ => thread::sleep(due.saturating_duration_since(Instant::now())),
        }
        if run.publisher_ends.load(Relaxed) {
            break;
        }
        let clock = run.clock();
        if run.is_measured(clock) {
            done.late = done.late.max(due.elapsed());
        }
        let (id, kind) = if unit.kind == Kind::Audio { (5, 8) } else { (6, 9) };
        out.clear();
        put(&mut out, id, kind, stream, unit.time, &body_of(number as u64, unit, clock, &run.filler), chunk);
        peer.send(&out)?;
        done.units += 1;
        done.bytes += out.len() as u64;
        run.published.store(done.units, Relaxed);
    }
    peer.leave(run, &mut room)?;
    Ok(done)
}

// -------------------------------------------------------------------------------------------------------------- the players

/// What one player saw.
#[derive(Default)]
struct Sight {
    /// The types whose configuration came.
    configured: HashSet<u8>,
    /// The number of the unit that should come next, once one came.
    next: Option<u64>,
    units: u64,
    skips: u64,
    missing: u64,
    unconfigured: u64,
    elsewhere: u64,
    disordered: u64,
    broken: u64,
    mistimed: u64,
    /// Of units that were sent in the measured time: microseconds from the publisher's clock to here.
    ways: Vec<u32>,
}

impl Sight {
    /// Sees a message of sound or pictures. Tells whether it is the first unit.
    fn see(&mut self, run: &Run, message: &Message, now: u64) -> bool {
        if message.length == 0 {
            return false;
        }
        if message.head.get(1) == Some(&0) {
            self.configured.insert(message.kind);
            return false;
        }
        let Some((kind, number, clock)) = read_head(message.head) else {
            self.broken += 1;
            return false;
        };
        let Some(unit) = run.units.get(number as usize) else {
            self.broken += 1;
            return false;
        };
        let first = self.next.is_none();
        let next = self.next.unwrap_or(number);
        self.units += 1;
        self.broken += u64::from(!(message.good && unit.kind == kind && unit.length == message.length));
        self.mistimed += u64::from(unit.time != message.time);
        self.unconfigured += u64::from(!self.configured.contains(&message.kind));
        if first {
            self.elsewhere += u64::from(kind != Kind::Key);
        } else if number < next {
            self.disordered += 1;
        } else if number > next {
            self.skips += 1;
            self.missing += number - next;
            self.elsewhere += u64::from(kind != Kind::Key);
        }
        self.next = Some(next.max(number + 1));
        if run.is_measured(clock) {
            self.ways.push((now.saturating_sub(clock) / 1000).min(u32::MAX.into()) as u32);
        }
        first
    }

    /// Counts as missing what was published after the last unit that came.
    fn end(&mut self, published: u64) {
        self.missing += published - self.next.unwrap_or(0).min(published);
    }

    fn is_sound(&self) -> bool {
        self.units > 0 && self.elsewhere + self.unconfigured + self.disordered + self.broken + self.mistimed == 0
    }

    /// What shouldn't be, in words.
    fn faults<'a>(sights: impl Iterator<Item = &'a Sight> + Clone) -> String {
        let sum = |count: fn(&Sight) -> u64| sights.clone().map(count).sum::<u64>();
        format!(
            "out of order {}, not whole {}, at another time {}, without configuration {}, begun elsewhere than at a keyframe {}",
            sum(|s| s.disordered),
            sum(|s| s.broken),
            sum(|s| s.mistimed),
            sum(|s| s.unconfigured),
            sum(|s| s.elsewhere)
        )
    }
}

/// Players that keep up and come in one way, so many in all. The first of them has the number `base` among all that keep up.
#[derive(Clone, Copy)]
struct Group {
    role: Role,
    base: usize,
    all: usize,
}

impl Group {
    /// How many threads are to have its players, and how many players each of these has.
    fn shares(self, threads: usize) -> (usize, impl Iterator<Item = usize>) {
        let threads = threads.min(self.all).max(1);
        (threads, (0..threads).map(move |i| self.all / threads + usize::from(i < self.all % threads)))
    }
}

/// Players of a group: the one with the number `first` in it and each `threads` further, `count` in all. They come one after the other,
/// and read what there is.
fn play(run: &Run, group: Group, first: usize, threads: usize, count: usize) -> Result<Vec<Sight>, String> {
    let between = Duration::from_millis(1000) / group.all.max(1) as u32;
    let (delay, apart) = (between * first as u32, between * threads as u32);
    let begun = Instant::now();
    let mut peers: Vec<Peer> = Vec::new();
    let mut sights: Vec<Sight> = Vec::new();
    let mut room = vec![0; 256 * 1024];
    while !run.players_end.load(Relaxed) && (peers.len() < count || peers.iter().any(|peer| peer.stage != Stage::Over)) {
        if peers.len() < count && begun.elapsed() >= delay + apart * peers.len() as u32 {
            peers.push(Peer::new(run, group.role)?);
            sights.push(Sight::default());
        }
        let mut watches: Vec<Watch> = peers.iter().map(|peer| Watch { fd: peer.watched(), events: IN, found: 0 }).collect();
        wait(&mut watches, if peers.len() < count { 2 } else { 100 });
        for (i, _) in watches.iter().enumerate().filter(|(_, watch)| watch.found != 0) {
            let came = peers[i].read(run, &mut room, &mut sights[i])?;
            run.delivered.fetch_add(came as u64, Relaxed);
            if let Some(next) = sights[i].next {
                run.nexts[group.base + first + i * threads].store(next, Relaxed);
            }
        }
    }
    Ok(sights)
}

impl Peer {
    /// What is watched of it: nothing once it is over.
    fn watched(&self) -> i32 {
        if self.stage == Stage::Over {
            -1
        } else {
            self.link.as_raw_fd()
        }
    }
}

/// A player that reads at a share of the broadcast's rate, in small pieces, with a small buffer of the system.
fn play_slowly(run: &Run, percent: u64) -> Result<(Sight, u64), String> {
    let rate = run.words.bytes_a_second() * percent as f64 / 100.0;
    let mut peer = Peer::new(run, Role::Plays)?;
    small_buffer(&peer.link);
    let mut sight = Sight::default();
    let mut room = vec![0; 8192];
    let mut allowed = 0.0;
    let mut last = Instant::now();
    while !run.players_end.load(Relaxed) && peer.stage != Stage::Over {
        let now = Instant::now();
        allowed = (allowed + rate * (now - last).as_secs_f64()).min(65_536.0);
        last = now;
        let most = (allowed as usize).min(room.len());
        let came = if most < 512 { 0 } else { peer.read(run, &mut room[..most], &mut sight)? };
        allowed -= came as f64;
        if came == 0 {
            thread::sleep(Duration::from_millis(5));
        }
    }
    Ok((sight, peer.received))
}

// --------------------------------------------------------------------------------------------------------------- the system

#[repr(C)]
struct Watch {
    fd: i32,
    events: i16,
    found: i16,
}

const IN: i16 = 1;
const OUT: i16 = 4;

extern "C" {
    fn poll(watches: *mut Watch, count: std::ffi::c_ulong, milliseconds: i32) -> i32;
    fn setsockopt(fd: i32, level: i32, name: i32, value: *const i32, length: u32) -> i32;
}

/// Waits until one of them has something, and tells how many have.
fn wait(watches: &mut [Watch], milliseconds: i32) -> i32 {
    // SAFETY: the pointer and the count are those of the slice, whose items are laid out as poll(2) wants.
    unsafe { poll(watches.as_mut_ptr(), watches.len() as std::ffi::c_ulong, milliseconds) }
}

fn small_buffer(link: &TcpStream) {
    const SOL_SOCKET: i32 = 1;
    const SO_RCVBUF: i32 = 8;
    let size = 32 * 1024;
    // SAFETY: the value is an i32, and its length is given.
    unsafe { setsockopt(link.as_raw_fd(), SOL_SOCKET, SO_RCVBUF, &size, 4) };
}

/// The processor time that the threads of a process took, in seconds.
fn processor_time(pid: &str) -> Option<f64> {
    let tasks = fs::read_dir(format!("/proc/{pid}/task")).ok()?;
    let times = tasks.filter_map(|task| fs::read_to_string(task.ok()?.path().join("schedstat")).ok());
    let sum: u64 = times.filter_map(|line| line.split(' ').next()?.parse::<u64>().ok()).sum();
    Some(sum as f64 / 1e9)
}

fn processor_times(pids: &[u32]) -> Option<f64> {
    (!pids.is_empty()).then(|| pids.iter().map(|pid| processor_time(&pid.to_string())).sum::<Option<f64>>()).flatten()
}

/// The most memory that a process had at once, in MB.
fn memory(pid: u32) -> Option<f64> {
    let status = fs::read_to_string(format!("/proc/{pid}/status")).ok()?;
    let line = status.lines().find(|line| line.starts_with("VmHWM:"))?;
    Some(line.split_whitespace().nth(1)?.parse::<f64>().ok()? * 1024.0 / 1e6)
}

fn machine_load() -> String {
    fs::read_to_string("/proc/loadavg").unwrap_or_default().split(' ').next().unwrap_or("?").into()
}

// --------------------------------------------------------------------------------------------------------------- the server

/// The relay that this program started.
struct Server {
    child: Child,
    folder: std::path::PathBuf,
}

impl Server {
    /// The server, and where it listens: for RTMP, and for HTTP where players come so.
    fn start(path: &str, words: &Words) -> Result<(Server, Vec<SocketAddr>), String> {
        let folder = std::env::temp_dir().join(format!("relay-load-{}", std::process::id()));
        fs::create_dir_all(&folder).map_err(|e| e.to_string())?;
        let config = folder.join("relay.toml");
        let http = match words.http {
            0 => String::new(),
            players => format!("http = \"127.0.0.2:0\"\nhttp_links = {players}\n"),
        };
        let relay = format!(
            "[relay]\nlisten = \"127.0.0.1:0\"\n{http}workers = {}\nlinks = 64\naccept = {}\nmax_message = 1048576\nring_bytes = {}\nplayers = {}\n",
            words.workers.max((words.links() - words.http).div_ceil(64)),
            words.links(),
            words.ring,
            words.links().max(4),
        );
        let stream = format!("[[stream]]\napp = \"{}\"\nname = \"{}\"\n", words.app, words.name);
        fs::write(&config, relay + &stream).map_err(|e| e.to_string())?;
        let mut child = Command::new(path)
            .arg("serve")
            .arg(&config)
            .stdout(Stdio::piped())
            .stderr(Stdio::piped())
            .spawn()
            .map_err(|e| format!("{path}: {e}"))?;
        let mut said = BufReader::new(child.stderr.take().unwrap()).lines();
        let server = Server { child, folder };
        let mut addresses = Vec::new();
        for line in said.by_ref().map_while(Result::ok) {
            match line.strip_prefix("relay: listens on ") {
                Some(address) => addresses.push(address.trim().parse().map_err(|_| format!("{address} is no address"))?),
                None => eprintln!("{line}"),
            }
            if addresses.len() == 1 + usize::from(words.http > 0) {
                thread::spawn(move || said.map_while(Result::ok).for_each(|line| eprintln!("{line}")));
                return Ok((server, addresses));
            }
        }
        Err("the server ended before it listened".into())
    }

    /// Waits until it ends by itself, as all links that it accepts are over, and gives its report.
    fn end(&mut self) -> Result<String, String> {
        for _ in 0..100 {
            if let Some(status) = self.child.try_wait().map_err(|e| e.to_string())? {
                let mut report = String::new();
                let _ = self.child.stdout.take().unwrap().read_to_string(&mut report);
                return Ok(format!("{status}; {}", report.trim().replace('\n', "; ")));
            }
            thread::sleep(Duration::from_millis(100));
        }
        Err("the server hasn't ended 10 s after its last link".into())
    }
}

impl Drop for Server {
    fn drop(&mut self) {
        let _ = self.child.kill();
        let _ = self.child.wait();
        let _ = fs::remove_dir_all(&self.folder);
    }
}

// ------------------------------------------------------------------------------------------------------------------- all of it

fn until(run: &Run, seconds: u64, what: &str, holds: impl Fn() -> bool) -> Result<(), String> {
    let begun = Instant::now();
    while !holds() {
        if let Some(fault) = run.fault.lock().unwrap().clone() {
            return Err(fault);
        }
        if begun.elapsed() > Duration::from_secs(seconds) {
            return Err(format!("after {seconds} s {what}"));
        }
        thread::sleep(Duration::from_millis(5));
    }
    Ok(())
}

/// What was measured between two moments.
struct Measured {
    seconds: f64,
    delivered: u64,
    server: Option<f64>,
    /// The most memory that the server had at once, in MB.
    memory: Option<f64>,
    own: f64,
}

/// Counts from here on, and gives what it came to when it is called.
fn meter<'a>(run: &'a Run, pids: &'a [u32]) -> impl FnOnce() -> Measured + 'a {
    let now = move || (run.clock(), run.delivered.load(Relaxed), processor_times(pids), processor_time("self").unwrap_or(0.0));
    let before = now();
    move || {
        let after = now();
        Measured {
            seconds: (after.0 - before.0) as f64 / 1e9,
            delivered: after.1 - before.1,
            server: after.2.zip(before.2).map(|(a, b)| a - b),
            memory: pids.iter().map(|&pid| memory(pid)).sum(),
            own: after.3 - before.3,
        }
    }
}

/// The least value with at least that share of all values at or below it.
fn percentile(sorted: &[u32], share: f64) -> f64 {
    let place = (sorted.len() as f64 * share).ceil() as usize;
    sorted.get(place.saturating_sub(1)).map_or(f64::NAN, |&micro| micro as f64 / 1000.0)
}

/// How long units were under way to these.
fn ways_of(sights: &[Sight]) -> String {
    let mut ways: Vec<u32> = sights.iter().flat_map(|sight| sight.ways.iter().copied()).collect();
    ways.sort_unstable();
    format!(
        "median {:.2} ms, 99th percentile {:.2} ms, greatest {:.2} ms, of {}",
        percentile(&ways, 0.5),
        percentile(&ways, 0.99),
        percentile(&ways, 1.0),
        ways.len()
    )
}

struct Seen {
    measured: Measured,
    published: Published,
    /// Of those over RTMP, and then of those over HTTP.
    keeping: Vec<Sight>,
    slow: Option<(Sight, u64)>,
}

fn run_load(run: &Arc<Run>, pids: &[u32]) -> Result<Seen, String> {
    fn start<T: Send + 'static>(
        run: &Arc<Run>,
        work: impl FnOnce(&Run) -> Result<T, String> + Send + 'static,
    ) -> thread::JoinHandle<Option<T>> {
        let run = Arc::clone(run);
        thread::spawn(move || work(&run).map_err(|fault| run.fails(fault)).ok())
    }
    let words = &run.words;
    let publisher = start(run, publish);
    until(run, 10, "nothing was published", || run.published.load(Relaxed) > 0)?;
    let groups = [
        Group { role: Role::Plays, base: 0, all: words.players },
        Group { role: Role::PlaysOverHttp, base: words.players, all: words.http },
    ];
    let players: Vec<_> = groups
        .iter()
        .flat_map(|&group| {
            let (threads, shares) = group.shares(words.threads);
            shares.enumerate().map(move |(i, count)| start(run, move |run| play(run, group, i, threads, count)))
        })
        .collect();
    let slow = words.slow.map(|percent| start(run, move |run| play_slowly(run, percent)));
    until(run, 20, "not each player had a unit", || run.playing.load(Relaxed) + 1 == words.links())?;
    thread::sleep(Duration::from_secs(1));

    let meter = meter(run, pids);
    run.from.store(run.clock(), Relaxed);
    let end = Instant::now() + Duration::from_secs(words.seconds);
    until(run, words.seconds + 1, "no end came", || Instant::now() >= end)?;
    run.until.store(run.clock(), Relaxed);
    let measured = meter();

    run.publisher_ends.store(true, Relaxed);
    let published = publisher.join().unwrap();
    let late = Arc::clone(run);
    thread::spawn(move || {
        thread::sleep(Duration::from_secs(3));
        late.players_end.store(true, Relaxed);
    });
    let keeping: Option<Vec<Vec<Sight>>> = players.into_iter().map(|thread| thread.join().unwrap()).collect();
    run.players_end.store(true, Relaxed);
    let slow = slow.map(|thread| thread.join().unwrap());
    if let Some(fault) = run.fault.lock().unwrap().clone() {
        return Err(fault);
    }
    let mut keeping: Vec<Sight> = keeping.unwrap_or_default().into_iter().flatten().collect();
    let published = published.ok_or("the publisher failed")?;
    keeping.iter_mut().for_each(|sight| sight.end(published.units));
    Ok(Seen { measured, published, keeping, slow: slow.flatten() })
}

/// Prints what was seen, and tells whether all held.
fn report(seen: &Seen, words: &Words, load: &str) -> bool {
    let Seen { measured, published, keeping, slow } = seen;
    println!(
        "{} players{}{}, {} Mbit/s, {:.1} s; load of the machine {load} before, {} after",
        words.keeping(),
        if words.http > 0 { format!(", {} of them over HTTP,", words.http) } else { String::new() },
        words.slow.map_or(String::new(), |percent| format!(" beside one that reads {percent} %")),
        words.mbit,
        measured.seconds,
        machine_load()
    );
    println!("published: {} units, {} bytes, at most {:.1} ms late", published.units, published.bytes, published.late.as_secs_f64() * 1e3);
    let sum = |count: fn(&Sight) -> u64| keeping.iter().map(count).sum::<u64>();
    println!(
        "players: {} units, {} bytes in the measured time; missing {}, {}",
        sum(|s| s.units),
        measured.delivered,
        sum(|s| s.missing),
        Sight::faults(keeping.iter())
    );
    println!("under way: {}", ways_of(keeping));
    if words.players > 0 && words.http > 0 {
        println!("over RTMP: {}", ways_of(&keeping[..words.players]));
        println!("over HTTP: {}", ways_of(&keeping[words.players..]));
    }
    if let Some(server) = measured.server {
        println!(
            "server: {server:.3} s of processor time ({:.2} % of one processor), {:.2} s a delivered GB, at most {:.1} MB of memory",
            100.0 * server / measured.seconds,
            server * 1e9 / measured.delivered as f64,
            measured.memory.unwrap_or(f64::NAN)
        );
    }
    if let Some((sight, bytes)) = slow {
        let behind = sight.ways.iter().max().map_or(f64::NAN, |&micro| micro as f64 / 1e6);
        println!(
            "slow: {} units, {bytes} bytes, {} skips over {} units, at most {behind:.1} s behind; {}",
            sight.units,
            sight.skips,
            sight.missing,
            Sight::faults(std::iter::once(sight))
        );
    }
    println!("this program: {:.3} s of processor time", measured.own);
    keeping.iter().all(|sight| sight.is_sound() && sight.missing == 0) && slow.as_ref().is_none_or(|(sight, _)| sight.is_sound())
}

fn main() {
    let words = Words::read();
    let load = machine_load();
    let nothing = |fault: String| -> ! {
        eprintln!("load: {fault}");
        exit(3)
    };
    let mut server = None;
    let mut pids = words.pids.clone();
    let parsed = |text: &String| text.parse().unwrap_or_else(|_| wrong("--to, --http-at and --publish-at want an IP address and a port"));
    let origin = words.publish_at.as_ref().map(parsed);
    let addresses: Vec<SocketAddr> = match (&words.serve, &words.to) {
        (Some(path), _) => {
            let (started, addresses) = Server::start(path, &words).unwrap_or_else(|fault| nothing(fault));
            pids = vec![started.child.id()];
            server = Some(started);
            addresses
        }
        (_, to) => to.iter().chain(&words.http_at).map(parsed).collect(),
    };
    let run = Arc::new(Run {
        units: plan(words.planned(), words.bytes_a_second()),
        nexts: (0..words.keeping()).map(|_| AtomicU64::new(0)).collect(),
        words,
        address: addresses[0],
        http: addresses[addresses.len() - 1],
        origin: origin.unwrap_or(addresses[0]),
        filler: Filler::new(),
        birth: Instant::now(),
        from: AtomicU64::new(u64::MAX),
        until: AtomicU64::new(u64::MAX),
        published: AtomicU64::new(0),
        playing: AtomicUsize::new(0),
        delivered: AtomicU64::new(0),
        publisher_ends: AtomicBool::new(false),
        players_end: AtomicBool::new(false),
        fault: Mutex::new(None),
    });
    let seen = run_load(&run, &pids);
    let held = match &seen {
        Ok(seen) => report(seen, &run.words, &load),
        Err(fault) => {
            eprintln!("load: {fault}");
            false
        }
    };
    if let Some(server) = &mut server {
        match server.end() {
            Ok(report) => println!("the server ended: {report}"),
            Err(fault) => eprintln!("load: {fault}"),
        }
    }
    drop(server);
    exit(match (seen.is_ok(), held) {
        (false, _) => 3,
        (_, false) => 1,
        _ => 0,
    })
}
