//! Replays reservation schedules as `clreplay run` does, in stock Rust without proofs: what the proved
//! program's speed is measured against. Lines are read in place from one buffer and answered into another.
use std::io::{self, Read, Write};
use std::process::ExitCode;

const LONGEST_LINE: usize = 4096;
const MOST_LINES: u64 = 200_000;
const NODES: usize = 16;

#[derive(Clone, Copy, PartialEq)]
enum Kind {
    WriteExclusive,
    ExclusiveAccess,
    WriteExclusiveRegistrantsOnly,
    ExclusiveAccessRegistrantsOnly,
}

impl Kind {
    fn of(number: u64) -> Result<Kind, Refusal> {
        match number {
            1 => Ok(Kind::WriteExclusive),
            3 => Ok(Kind::ExclusiveAccess),
            5 => Ok(Kind::WriteExclusiveRegistrantsOnly),
            6 => Ok(Kind::ExclusiveAccessRegistrantsOnly),
            _ => Err("number"),
        }
    }

    fn number(self) -> u64 {
        match self {
            Kind::WriteExclusive => 1,
            Kind::ExclusiveAccess => 3,
            Kind::WriteExclusiveRegistrantsOnly => 5,
            Kind::ExclusiveAccessRegistrantsOnly => 6,
        }
    }
}

/// The kind of a refusal, as the closing line has it.
type Refusal = &'static str;

enum Command {
    Register { key: u64, new: u64 },
    Ignore { new: u64 },
    Reserve { kind: Kind, key: u64 },
    Release { kind: Kind, key: u64 },
    Clear { key: u64 },
    Preempt { kind: Kind, key: u64, victim: u64 },
    Keys,
    Holder,
    Read,
    Write { value: u64 },
    Word,
    Swap { expect: u64, new: u64 },
}

struct Registration {
    node: u64,
    key: u64,
}

struct Device {
    paths: u32,
    registrations: Vec<Registration>,
    reservation: Option<(u64, Kind)>,
    word: u64,
    value: u64,
}

impl Device {
    fn new(paths: u32) -> Device {
        Device { paths, registrations: Vec::with_capacity(NODES), reservation: None, word: 0, value: 0 }
    }

    fn key_of(&self, node: u64) -> Option<u64> {
        self.registrations.iter().find(|r| r.node == node).map(|r| r.key)
    }

    /// Carries out the command, and appends its answer.
    fn execute(&mut self, from: u64, command: Command, text: &mut Vec<u8>) {
        if self.paths >> from & 1 == 0 {
            text.extend_from_slice(b"no-path");
            return;
        }
        let done = match command {
            Command::Register { key, new } => self.key_of(from).unwrap_or(0) == key && self.set_key(from, new),
            Command::Ignore { new } => self.set_key(from, new),
            Command::Reserve { kind, key } => self.key_of(from) == Some(key) && self.reserve(from, kind),
            Command::Release { kind, key } => {
                if self.key_of(from) != Some(key) {
                    false
                } else if self.reservation.is_some_and(|(holder, held)| holder == from && held != kind) {
                    text.extend_from_slice(b"invalid-release");
                    return;
                } else {
                    self.reservation = self.reservation.filter(|(holder, _)| *holder != from);
                    true
                }
            }
            Command::Clear { key } => self.key_of(from) == Some(key) && self.clear(),
            Command::Preempt { kind, key, victim } => self.key_of(from) == Some(key) && self.preempt(from, kind, victim),
            Command::Keys => return self.keys(text),
            Command::Holder => return self.holder(text),
            Command::Read if self.may_read(from) => return number_line(text, b"data ", self.value),
            Command::Word if self.may_read(from) => return number_line(text, b"word ", self.word),
            Command::Read | Command::Word => false,
            Command::Write { value } => {
                let allowed = self.may_write(from);
                if allowed {
                    self.value = value;
                }
                allowed
            }
            Command::Swap { expect, new } => {
                let allowed = self.may_write(from);
                if allowed && self.word != expect {
                    return number_line(text, b"miscompare ", self.word);
                }
                if allowed {
                    self.word = new;
                }
                allowed
            }
        };
        text.extend_from_slice(if done { b"good" } else { b"conflict" });
    }

    fn set_key(&mut self, node: u64, new: u64) -> bool {
        match self.registrations.iter().position(|r| r.node == node) {
            None if new == 0 => {}
            None => self.registrations.push(Registration { node, key: new }),
            Some(at) if new == 0 => {
                self.registrations.remove(at);
                self.reservation = self.reservation.filter(|(holder, _)| *holder != node);
            }
            Some(at) => self.registrations[at].key = new,
        }
        true
    }

    fn reserve(&mut self, from: u64, kind: Kind) -> bool {
        match self.reservation {
            None => {
                self.reservation = Some((from, kind));
                true
            }
            Some(held) => held == (from, kind),
        }
    }

    fn clear(&mut self) -> bool {
        self.registrations.clear();
        self.reservation = None;
        true
    }

    fn preempt(&mut self, from: u64, kind: Kind, victim: u64) -> bool {
        if !self.registrations.iter().any(|r| r.key == victim) {
            return false;
        }
        if self.reservation.is_some_and(|(holder, _)| self.key_of(holder) == Some(victim)) {
            self.reservation = Some((from, kind));
        }
        self.registrations.retain(|r| r.key != victim);
        true
    }

    fn may_read(&self, node: u64) -> bool {
        match self.reservation {
            None | Some((_, Kind::WriteExclusive | Kind::WriteExclusiveRegistrantsOnly)) => true,
            Some((holder, Kind::ExclusiveAccess)) => holder == node,
            Some((_, Kind::ExclusiveAccessRegistrantsOnly)) => self.key_of(node).is_some(),
        }
    }

    fn may_write(&self, node: u64) -> bool {
        match self.reservation {
            None => true,
            Some((holder, Kind::WriteExclusive | Kind::ExclusiveAccess)) => holder == node,
            Some(_) => self.key_of(node).is_some(),
        }
    }

    fn keys(&self, text: &mut Vec<u8>) {
        text.extend_from_slice(b"keys");
        if self.registrations.is_empty() {
            text.extend_from_slice(b" none");
        }
        for registration in &self.registrations {
            text.push(b' ');
            push_number(text, registration.key, 16);
        }
    }

    fn holder(&self, text: &mut Vec<u8>) {
        let held = self.reservation.and_then(|(holder, kind)| Some((self.key_of(holder)?, kind)));
        let Some((key, kind)) = held else {
            text.extend_from_slice(b"reservation none");
            return;
        };
        text.extend_from_slice(b"reservation ");
        push_number(text, key, 16);
        text.push(b' ');
        push_number(text, kind.number(), 10);
    }
}

fn number_line(text: &mut Vec<u8>, words: &[u8], number: u64) {
    text.extend_from_slice(words);
    push_number(text, number, 10);
}

fn push_number(text: &mut Vec<u8>, number: u64, base: u64) {
    let mut digits = [0; 20];
    let mut at = digits.len();
    let mut rest = number;
    loop {
        at -= 1;
        digits[at] = b"0123456789abcdef"[(rest % base) as usize];
        rest /= base;
        if rest == 0 {
            break;
        }
    }
    text.extend_from_slice(&digits[at..]);
}

/// The number that the word is, or None where it has another form; a number beyond its type is an inner None.
fn decimal(word: &[u8]) -> Option<Option<u64>> {
    if word.is_empty() || (word[0] == b'0' && word.len() > 1) || !word.iter().all(u8::is_ascii_digit) {
        return None;
    }
    let step = |number: u64, b: &u8| number.checked_mul(10)?.checked_add(u64::from(b - b'0'));
    Some(word.iter().try_fold(0, step))
}

fn key(word: &[u8]) -> Option<u64> {
    if word.is_empty() || word.len() > 16 || (word[0] == b'0' && word.len() > 1) {
        return None;
    }
    let mut key = 0;
    for b in word {
        let digit = match b {
            b'0'..=b'9' => b - b'0',
            b'a'..=b'f' => b - b'a' + 10,
            _ => return None,
        };
        key = key << 4 | u64::from(digit);
    }
    Some(key)
}

enum Line {
    Blank,
    End,
    Power,
    Command(u64, Command),
}

fn is_blank(line: &[u8]) -> bool {
    line.is_empty() || line[0] == b'#'
}

fn read_line(line: &[u8]) -> Result<Line, Refusal> {
    match line {
        b"end" => return Ok(Line::End),
        b"power" => return Ok(Line::Power),
        _ if is_blank(line) => return Ok(Line::Blank),
        _ => {}
    }
    let mut words = line.split(|b| *b == b' ');
    let sender = decimal(words.next().ok_or("line")?).ok_or("line")?;
    let name = words.next().ok_or("line")?;
    let mut fields: [&[u8]; 3] = [b"", b"", b""];
    let mut count = 0;
    for word in words {
        *fields.get_mut(count).ok_or("line")? = word;
        count += 1;
    }
    let command = command(name, &fields[..count])?;
    match sender {
        Some(sender @ 1..=16) => Ok(Line::Command(sender, command)),
        _ => Err("number"),
    }
}

fn key_field(word: &[u8]) -> Result<u64, Refusal> {
    key(word).ok_or("line")
}

fn number_field(word: &[u8]) -> Result<Option<u64>, Refusal> {
    decimal(word).ok_or("line")
}

fn in_range(number: Option<u64>) -> Result<u64, Refusal> {
    number.ok_or("number")
}

fn kind_field(number: Option<u64>) -> Result<Kind, Refusal> {
    Kind::of(in_range(number)?)
}

fn command(name: &[u8], fields: &[&[u8]]) -> Result<Command, Refusal> {
    match (name, fields) {
        (b"register", [key, new]) => Ok(Command::Register { key: key_field(key)?, new: key_field(new)? }),
        (b"ignore", [new]) => Ok(Command::Ignore { new: key_field(new)? }),
        (b"reserve", [kind, key]) => {
            let (number, key) = (number_field(kind)?, key_field(key)?);
            Ok(Command::Reserve { kind: kind_field(number)?, key })
        }
        (b"release", [kind, key]) => {
            let (number, key) = (number_field(kind)?, key_field(key)?);
            Ok(Command::Release { kind: kind_field(number)?, key })
        }
        (b"clear", [key]) => Ok(Command::Clear { key: key_field(key)? }),
        (b"preempt", [kind, key, victim]) => {
            let (number, key, victim) = (number_field(kind)?, key_field(key)?, key_field(victim)?);
            if victim == 0 || victim == key {
                return Err("line");
            }
            Ok(Command::Preempt { kind: kind_field(number)?, key, victim })
        }
        (b"keys", []) => Ok(Command::Keys),
        (b"holder", []) => Ok(Command::Holder),
        (b"read", []) => Ok(Command::Read),
        (b"write", [value]) => Ok(Command::Write { value: in_range(number_field(value)?)? }),
        (b"word", []) => Ok(Command::Word),
        (b"swap", [expect, new]) => {
            let (expect, new) = (number_field(expect)?, number_field(new)?);
            Ok(Command::Swap { expect: in_range(expect)?, new: in_range(new)? })
        }
        _ => Err("line"),
    }
}

/// How far the schedule was read.
enum State {
    Opening,
    Senders,
    Replaying(Device),
}

/// Why reading stops.
enum Stop {
    Ended,
    Refused(Refusal),
    TooLarge,
}

fn senders(line: &[u8]) -> Result<u32, Refusal> {
    let mut words = line.split(|b| *b == b' ');
    if words.next() != Some(b"senders") {
        return Err("header");
    }
    let numbers: Vec<Option<Option<u64>>> = words.map(decimal).collect();
    if numbers.is_empty() || numbers.iter().any(Option::is_none) {
        return Err("header");
    }
    let (mut paths, mut greatest) = (0, 0);
    for number in numbers.into_iter().flatten() {
        match number {
            Some(n @ 1..=16) if n > greatest => (paths, greatest) = (paths | 1 << n, n),
            _ => return Err("number"),
        }
    }
    Ok(paths)
}

struct Replay {
    state: State,
    lines: u64,
    text: Vec<u8>,
}

impl Replay {
    fn take_line(&mut self, line: &[u8]) -> Result<(), Stop> {
        self.lines += 1;
        if self.lines > MOST_LINES || line.len() > LONGEST_LINE {
            return Err(Stop::TooLarge);
        }
        match &mut self.state {
            State::Replaying(device) => match read_line(line).map_err(Stop::Refused)? {
                Line::Blank => {}
                Line::End => return Err(Stop::Ended),
                Line::Power => self.text.extend_from_slice(b"powered\n"),
                Line::Command(sender, command) => {
                    device.execute(sender, command, &mut self.text);
                    self.text.push(b'\n');
                }
            },
            _ if is_blank(line) => {}
            State::Opening => match line {
                b"schedule pr 1" => self.state = State::Senders,
                b"schedule cluster 1" | b"schedule cluster 2" => return Err(Stop::Refused("not-built")),
                _ => return Err(Stop::Refused("header")),
            },
            State::Senders => self.state = State::Replaying(Device::new(senders(line).map_err(Stop::Refused)?)),
        }
        Ok(())
    }

    /// Where the input ends, behind this beginning of a line.
    fn finish(&mut self, rest: &[u8]) -> Stop {
        if !rest.is_empty() {
            if let Err(stop) = self.take_line(rest) {
                return stop;
            }
        }
        if let State::Replaying(_) = self.state {
            return Stop::Ended;
        }
        self.lines += 1;
        Stop::Refused("header")
    }

    /// Reads to the end; the bytes of a line that is not whole yet are moved to the front of the buffer.
    fn read(&mut self, mut input: impl Read, mut output: impl Write) -> io::Result<Stop> {
        let mut buffer = vec![0; 1 << 16];
        let mut held = 0;
        loop {
            let count = input.read(&mut buffer[held..])?;
            if count == 0 {
                return Ok(self.finish(&buffer[..held]));
            }
            let end = held + count;
            let mut at = 0;
            while let Some(length) = buffer[at..end].iter().position(|b| *b == b'\n') {
                if let Err(stop) = self.take_line(&buffer[at..at + length]) {
                    return Ok(stop);
                }
                at += length + 1;
            }
            buffer.copy_within(at..end, 0);
            held = end - at;
            if held > LONGEST_LINE {
                self.lines += 1;
                return Ok(Stop::TooLarge);
            }
            output.write_all(&self.text)?;
            self.text.clear();
        }
    }
}

fn main() -> ExitCode {
    let mut replay = Replay { state: State::Opening, lines: 0, text: Vec::with_capacity(1 << 17) };
    let (input, mut output) = (io::stdin().lock(), io::stdout().lock());
    let Ok(stop) = replay.read(input, &mut output) else {
        return ExitCode::from(4);
    };
    let code = match stop {
        Stop::Ended => 0,
        Stop::Refused(kind) => {
            replay.text.extend_from_slice(format!("refused {} {kind}\n", replay.lines).as_bytes());
            3
        }
        Stop::TooLarge => {
            replay.text.extend_from_slice(format!("too-large {}\n", replay.lines).as_bytes());
            7
        }
    };
    match output.write_all(&replay.text).and_then(|()| output.flush()) {
        Ok(()) => ExitCode::from(code),
        Err(_) => ExitCode::from(5),
    }
}
