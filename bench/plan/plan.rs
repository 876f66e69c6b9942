//! A plain Rust program that answers as `vodserve plan trace=NAME buffer=BYTES startup=SLOTS` does: it reads the same
//! traces, runs the same funnel and prints the same certificate. Nothing of it is proved; it is there to be measured
//! beside the proved program. One file, no crates: `rustc --edition 2024 -O plan.rs`.
//!
//! With the word `stop=reading` it ends after the trace is read, with `stop=plan` after the plan is made, in both cases
//! without any output, so that the parts of its time can be told apart.

use std::collections::VecDeque;
use std::io::Write;
use std::process::ExitCode;

const MOST_PICTURES: usize = 1_000_000;
const MOST_SIZE: u64 = 1 << 32;
const MOST_TOTAL: u64 = 1 << 40;
const MOST_BUFFER: u64 = 1 << 42;
const MOST_STARTUP: u64 = 10_000;

/// Where the program stops.
#[derive(Clone, Copy, PartialEq, Eq)]
enum Stop {
    Reading,
    Plan,
    End,
}

struct Words {
    trace: String,
    buffer: u64,
    startup: u64,
    stop: Stop,
}

/// The lower and the upper curve: the bytes sent in all by the end of each slot.
struct Curves {
    low: Vec<u64>,
    up: Vec<u64>,
}

/// Place k is the end of slot k - 1, place 0 the start.
#[derive(Clone, Copy)]
struct Point {
    place: u64,
    height: u64,
}

#[derive(Clone, Copy)]
struct Segment {
    slots: u64,
    bytes: u64,
}

fn read_number(token: &[u8]) -> Option<u64> {
    if token.is_empty() {
        return None;
    }
    let mut value = 0u64;
    for byte in token {
        if !byte.is_ascii_digit() {
            return None;
        }
        value = value.checked_mul(10)?.checked_add(u64::from(byte - b'0'))?;
    }
    Some(value)
}

fn read_words() -> Option<Words> {
    let mut arguments = std::env::args().skip(1);
    if arguments.next()? != "plan" {
        return None;
    }
    let (mut trace, mut buffer, mut startup, mut stop) = (None, 1 << 20, 25, Stop::End);
    for word in arguments {
        let (key, value) = word.split_once('=')?;
        match key {
            "trace" => trace = Some(value.to_string()),
            "buffer" => buffer = read_number(value.as_bytes())?,
            "startup" => startup = read_number(value.as_bytes())?,
            "stop" if value == "reading" => stop = Stop::Reading,
            "stop" if value == "plan" => stop = Stop::Plan,
            _ => return None,
        }
    }
    if buffer == 0 || buffer > MOST_BUFFER || startup > MOST_STARTUP {
        return None;
    }
    Some(Words { trace: trace?, buffer, startup, stop })
}

fn is_blank(byte: u8) -> bool {
    matches!(byte, b' ' | b'\t' | b'\r' | b'\n')
}

/// The sizes of a trace, or the place of its first bad token.
fn read_trace(text: &[u8]) -> Result<Vec<u64>, usize> {
    let mut sizes = Vec::new();
    let mut total = 0u64;
    let mut at = 0;
    loop {
        while at < text.len() && is_blank(text[at]) {
            at += 1;
        }
        if at == text.len() {
            return Ok(sizes);
        }
        let from = at;
        while at < text.len() && !is_blank(text[at]) {
            at += 1;
        }
        match read_number(&text[from..at]) {
            Some(size) if sizes.len() < MOST_PICTURES && size <= MOST_SIZE && total + size <= MOST_TOTAL => {
                sizes.push(size);
                total += size;
            }
            _ => return Err(from),
        }
    }
}

/// The curves of pictures that are used one in each slot from slot `startup` on, or the fault that they have.
fn curves_of(sizes: &[u64], buffer: u64, startup: u64) -> Result<Curves, String> {
    if sizes.is_empty() {
        return Err("NoPictures".to_string());
    }
    let startup = startup as usize;
    let slots = sizes.len() + startup;
    if slots > 1_000_000 {
        return Err(format!("TooManySlots {slots}"));
    }
    if let Some(slot) = sizes.iter().position(|size| *size > buffer) {
        let least = sizes.iter().max().unwrap();
        return Err(format!("BufferTooSmall {} {} {least}", slot + startup, sizes[slot]));
    }
    let total = sizes.iter().sum::<u64>();
    let mut low = Vec::with_capacity(slots);
    let mut up = Vec::with_capacity(slots);
    let mut used = 0u64;
    for slot in 0..slots {
        up.push(total.min(used + buffer));
        if slot >= startup {
            used += sizes[slot - startup];
        }
        low.push(used);
    }
    Ok(Curves { low, up })
}

/// The heights, at the middle place, of the line from the first point to the last and of the middle point, both times
/// the places from the first to the last.
fn weights(first: Point, middle: Point, last: Point) -> (u128, u128) {
    let before = u128::from(middle.place - first.place);
    let beyond = u128::from(last.place - middle.place);
    (
        beyond * u128::from(first.height) + before * u128::from(last.height),
        (before + beyond) * u128::from(middle.height),
    )
}

fn is_above(first: Point, middle: Point, last: Point) -> bool {
    let (line, point) = weights(first, middle, last);
    line < point
}

fn is_below(first: Point, middle: Point, last: Point) -> bool {
    let (line, point) = weights(first, middle, last);
    point < line
}

/// The funnel: the chains of both curves from the last corner, and the segments up to it.
struct Funnel {
    apex: Point,
    lower: VecDeque<Point>,
    upper: VecDeque<Point>,
    segments: Vec<Segment>,
}

impl Funnel {
    fn bend_at(&mut self, corner: Point) {
        self.segments.push(Segment {
            slots: corner.place - self.apex.place,
            bytes: corner.height - self.apex.height,
        });
        self.apex = corner;
    }

    /// Takes in a point of the lower curve.
    fn rise(&mut self, point: Point) {
        while let Some(last) = self.lower.back().copied() {
            let before = match self.lower.len() {
                1 => self.apex,
                len => self.lower[len - 2],
            };
            if is_above(before, last, point) {
                break;
            }
            self.lower.pop_back();
        }
        self.lower.push_back(point);
        while let Some(corner) = self.upper.front().copied() {
            if !is_below(self.apex, corner, point) {
                break;
            }
            self.upper.pop_front();
            self.bend_at(corner);
        }
    }

    /// Takes in a point of the upper curve.
    fn sink(&mut self, point: Point) {
        while let Some(last) = self.upper.back().copied() {
            let before = match self.upper.len() {
                1 => self.apex,
                len => self.upper[len - 2],
            };
            if is_below(before, last, point) {
                break;
            }
            self.upper.pop_back();
        }
        self.upper.push_back(point);
        while let Some(corner) = self.lower.front().copied() {
            if !is_above(self.apex, corner, point) {
                break;
            }
            self.lower.pop_front();
            self.bend_at(corner);
        }
    }
}

/// The taut line between the curves.
fn plan(curves: &Curves) -> Vec<Segment> {
    let mut funnel = Funnel {
        apex: Point { place: 0, height: 0 },
        lower: VecDeque::new(),
        upper: VecDeque::new(),
        segments: Vec::new(),
    };
    let mut end = funnel.apex;
    for (slot, (low, up)) in curves.low.iter().zip(&curves.up).enumerate() {
        let place = slot as u64 + 1;
        end = Point { place, height: *up };
        funnel.rise(Point { place, height: *low });
        funnel.sink(end);
    }
    funnel.bend_at(end);
    funnel.segments
}

/// Appends a number in decimal digits.
fn push_number(text: &mut Vec<u8>, mut number: u64) {
    let mut digits = [0u8; 20];
    let mut at = digits.len();
    loop {
        at -= 1;
        digits[at] = b'0' + (number % 10) as u8;
        number /= 10;
        if number == 0 {
            break;
        }
    }
    text.extend_from_slice(&digits[at..]);
}

fn certificate(segments: &[Segment]) -> Vec<u8> {
    let mut text = b"smooth 1\nslots ".to_vec();
    push_number(&mut text, segments.iter().map(|segment| segment.slots).sum());
    text.extend_from_slice(b"\nbytes ");
    push_number(&mut text, segments.iter().map(|segment| segment.bytes).sum());
    for segment in segments {
        text.extend_from_slice(b"\nsegment ");
        push_number(&mut text, segment.slots);
        text.push(b' ');
        push_number(&mut text, segment.bytes);
    }
    text.extend_from_slice(b"\nend\n");
    text
}

fn refuse(line: &str) -> ExitCode {
    eprintln!("{line}");
    ExitCode::from(3)
}

fn main() -> ExitCode {
    let Some(words) = read_words() else {
        eprintln!("vodserve: usage");
        return ExitCode::from(2);
    };
    let name = &words.trace;
    let Ok(text) = std::fs::read(name) else {
        return refuse(&format!("vodserve: {name}: NotFound"));
    };
    let sizes = match read_trace(&text) {
        Ok(sizes) => sizes,
        Err(place) => return refuse(&format!("vodserve: {name}: BadTrace {place}")),
    };
    if words.stop == Stop::Reading {
        std::hint::black_box(&sizes);
        return ExitCode::SUCCESS;
    }
    let curves = match curves_of(&sizes, words.buffer, words.startup) {
        Ok(curves) => curves,
        Err(fault) => return refuse(&format!("vodserve: {name}: {fault}")),
    };
    let segments = plan(&curves);
    if words.stop == Stop::Plan {
        std::hint::black_box(&segments);
        return ExitCode::SUCCESS;
    }
    match std::io::stdout().write_all(&certificate(&segments)) {
        Ok(()) => ExitCode::SUCCESS,
        Err(_) => ExitCode::from(5),
    }
}
