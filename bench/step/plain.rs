//! What `turns.rattle` does, in plain Rust: a node's machine as one would write it for speed, with the standard library alone, over
//! a table of peers of `tables.rs`. It has what these turns need and no more: the handshake since version 6, no names that cross,
//! no list of allowed names. It proves nothing, and stops where memory is short.
//!
//!     plain tree|best KIND FIRST TURNS
//!
//! reads and prints the same as `turns KIND FIRST TURNS`.

mod md5;
mod tables;

use std::io::Read;
use tables::{Entry, Hashed, NoPeer, Slot, Slots, Table, Tree};

const HANDSHAKE_23: u64 = 1 << 24;
const NAME_ME: u64 = 1 << 33;
const MOST_STEPS: u32 = 1_000_000_000;
const MOST_OPEN: usize = 100_000;
const MOST_ENTRIES: usize = 100_000;

// ---- messages

enum Message<'a> {
    Name { other: Other, name: &'a [u8] },
    Status(&'a [u8]),
    Challenge { challenge: u32, other: Other, name: &'a [u8] },
    Reply { challenge: u32, digest: &'a [u8] },
    Ack { digest: &'a [u8] },
}

/// What a node announces.
#[derive(Clone, Copy)]
struct Other {
    flags: u64,
    creation: u32,
}

fn u32_at(bytes: &[u8], at: usize) -> Option<u32> {
    Some(u32::from_be_bytes(bytes.get(at..at + 4)?.try_into().ok()?))
}

fn u64_at(bytes: &[u8], at: usize) -> Option<u64> {
    Some(u64::from_be_bytes(bytes.get(at..at + 8)?.try_into().ok()?))
}

fn name_at(bytes: &[u8], at: usize) -> Option<&[u8]> {
    let size = u16::from_be_bytes(bytes.get(at..at + 2)?.try_into().ok()?);
    bytes.get(at + 2..at + 2 + usize::from(size))
}

fn of_dialler(body: &[u8]) -> Option<Message<'_>> {
    match body.first()? {
        b'N' => {
            let other = Other { flags: u64_at(body, 1)?, creation: u32_at(body, 9)? };
            Some(Message::Name { other, name: name_at(body, 13)? })
        }
        b'r' if body.len() == 21 => Some(Message::Reply { challenge: u32_at(body, 1)?, digest: &body[5..] }),
        _ => None,
    }
}

fn of_acceptor(body: &[u8]) -> Option<Message<'_>> {
    match body.first()? {
        b's' => Some(Message::Status(&body[1..])),
        b'N' => {
            let other = Other { flags: u64_at(body, 1)?, creation: u32_at(body, 13)? };
            Some(Message::Challenge { challenge: u32_at(body, 9)?, other, name: name_at(body, 17)? })
        }
        b'a' if body.len() == 17 => Some(Message::Ack { digest: &body[1..] }),
        _ => None,
    }
}

fn say_name(say: &mut Vec<u8>, own: Other, name: &[u8]) {
    let mut head = [0u8; 17];
    head[..2].copy_from_slice(&(15 + name.len() as u16).to_be_bytes());
    head[2] = b'N';
    head[3..11].copy_from_slice(&own.flags.to_be_bytes());
    head[11..15].copy_from_slice(&own.creation.to_be_bytes());
    head[15..].copy_from_slice(&(name.len() as u16).to_be_bytes());
    say.reserve(17 + name.len());
    say.extend_from_slice(&head);
    say.extend_from_slice(name);
}

fn say_challenge(say: &mut Vec<u8>, own: Other, challenge: u32, name: &[u8]) {
    let mut head = [0u8; 21];
    head[..2].copy_from_slice(&(19 + name.len() as u16).to_be_bytes());
    head[2] = b'N';
    head[3..11].copy_from_slice(&own.flags.to_be_bytes());
    head[11..15].copy_from_slice(&challenge.to_be_bytes());
    head[15..19].copy_from_slice(&own.creation.to_be_bytes());
    head[19..].copy_from_slice(&(name.len() as u16).to_be_bytes());
    say.reserve(21 + name.len());
    say.extend_from_slice(&head);
    say.extend_from_slice(name);
}

fn say_reply(say: &mut Vec<u8>, challenge: u32, digest: &[u8; 16]) {
    let mut all = [0u8; 23];
    all[..3].copy_from_slice(b"\0\x15r");
    all[3..7].copy_from_slice(&challenge.to_be_bytes());
    all[7..].copy_from_slice(digest);
    say.extend_from_slice(&all);
}

fn say_ack(say: &mut Vec<u8>, digest: &[u8; 16]) {
    let mut all = [0u8; 19];
    all[..3].copy_from_slice(b"\0\x11a");
    all[3..].copy_from_slice(digest);
    say.extend_from_slice(&all);
}

fn is_good(name: &[u8]) -> bool {
    if !(3..=255).contains(&name.len()) {
        return false;
    }
    let (mut bad, mut ats) = (false, 0u8);
    for byte in name {
        bad |= byte.wrapping_sub(0x21) > 0x5d;
        ats = ats.saturating_add(u8::from(*byte == b'@'));
    }
    !bad && ats == 1 && name[0] != b'@' && name[name.len() - 1] != b'@'
}

// ---- the machine

type EndId = u32;

#[derive(Clone, Copy)]
enum Phase {
    AwaitName,
    Dialing(Slot),
    AwaitStatus(Slot),
    AwaitChallenge(Slot),
    AwaitAck { peer: Slot, challenge: u32, other: Other },
    AwaitReply { peer: Slot, challenge: u32, other: Other },
    Up { peer: Slot, _common: Other },
}

impl Phase {
    fn peer(self) -> Option<Slot> {
        match self {
            Phase::AwaitName => None,
            Phase::Dialing(peer) | Phase::AwaitStatus(peer) | Phase::AwaitChallenge(peer) => Some(peer),
            Phase::AwaitAck { peer, .. } | Phase::AwaitReply { peer, .. } | Phase::Up { peer, .. } => Some(peer),
        }
    }
}

#[derive(Clone, Copy, Debug)]
enum Why {
    Ended,
    Malformed,
    Unexpected,
    WrongName,
    WrongFlags,
    WrongDigest,
    StatusRefused,
    Refused,
}

#[derive(Clone, Copy)]
enum End {
    Open(Slot),
    Closed(Why),
}

#[derive(Debug)]
#[allow(dead_code)]
enum StepError {
    NoSuchEnd,
    Gone(Why),
    WrongPhase,
    Busy,
    Spent,
    Full,
}

/// What a step did beside what it said.
#[derive(Clone, Copy, Default)]
struct Done {
    _closed: Option<(EndId, Why)>,
    _is_up: bool,
}

struct Node<T> {
    name: &'static [u8],
    cookie: &'static [u8],
    own: Other,
    steps: u32,
    ends: Vec<End>,
    open: Slots<Phase>,
    peers: T,
}

impl<T: Table> Node<T> {
    fn digest(&self, challenge: u32) -> [u8; 16] {
        let (mut digits, mut at, mut left) = ([0u8; 10], 10, challenge);
        loop {
            at -= 1;
            digits[at] = b'0' + (left % 10) as u8;
            left /= 10;
            if left == 0 {
                return md5::md5(self.cookie, &digits[at..]);
            }
        }
    }

    fn phase(&mut self, end: EndId) -> Result<&mut Phase, StepError> {
        match self.ends.get(end as usize) {
            None => Err(StepError::NoSuchEnd),
            Some(End::Closed(why)) => Err(StepError::Gone(*why)),
            Some(End::Open(slot)) => Ok(self.open.at(*slot)),
        }
    }

    fn count(&mut self) -> Result<(), StepError> {
        if self.steps >= MOST_STEPS {
            return Err(StepError::Spent);
        }
        self.steps += 1;
        Ok(())
    }

    fn give_out(&mut self, phase: Phase) -> EndId {
        let slot = self.open.put(phase);
        self.ends.push(End::Open(slot));
        self.ends.len() as u32 - 1
    }

    fn close(&mut self, end: EndId, why: Why) -> Done {
        if let Some(End::Open(slot)) = self.ends.get(end as usize).copied() {
            self.ends[end as usize] = End::Closed(why);
            if let Some(peer) = self.open.take(slot).and_then(Phase::peer) {
                self.peers.remove(peer);
            }
        }
        Done { _closed: Some((end, why)), _is_up: false }
    }

    fn go(&mut self, end: EndId, phase: Phase) -> Done {
        if let Ok(at) = self.phase(end) {
            *at = phase;
        }
        Done::default()
    }

    fn accept(&mut self) -> Result<EndId, StepError> {
        if self.open.len() >= MOST_OPEN {
            return Err(StepError::Full);
        }
        self.count()?;
        Ok(self.give_out(Phase::AwaitName))
    }

    fn dial(&mut self, peer: &[u8]) -> Result<EndId, StepError> {
        if self.open.len() >= MOST_OPEN || self.steps >= MOST_STEPS {
            return Err(StepError::Full);
        }
        let entry = Entry::Out(self.ends.len() as u32);
        let peer = self.peers.insert(peer, entry, MOST_ENTRIES).map_err(|no_peer| match no_peer {
            NoPeer::Known => StepError::Busy,
            NoPeer::Full => StepError::Full,
        })?;
        self.count()?;
        Ok(self.give_out(Phase::Dialing(peer)))
    }

    fn open(&mut self, end: EndId, say: &mut Vec<u8>) -> Result<Done, StepError> {
        let Phase::Dialing(peer) = *self.phase(end)? else {
            return Err(StepError::WrongPhase);
        };
        self.count()?;
        say_name(say, self.own, self.name);
        Ok(self.go(end, Phase::AwaitStatus(peer)))
    }

    fn lose(&mut self, end: EndId, why: Why) -> Result<Done, StepError> {
        self.phase(end)?;
        Ok(self.close(end, why))
    }

    fn tick(&mut self, end: EndId) -> Result<[u8; 4], StepError> {
        let Phase::Up { .. } = *self.phase(end)? else {
            return Err(StepError::WrongPhase);
        };
        self.count()?;
        Ok([0; 4])
    }

    fn frame(&mut self, end: EndId, body: &[u8], fresh: u32, say: &mut Vec<u8>) -> Result<Done, StepError> {
        let phase = *self.phase(end)?;
        let message = match phase {
            Phase::Dialing(_) | Phase::Up { .. } => return Err(StepError::WrongPhase),
            Phase::AwaitName | Phase::AwaitReply { .. } => of_dialler(body),
            Phase::AwaitStatus(_) | Phase::AwaitChallenge(_) | Phase::AwaitAck { .. } => of_acceptor(body),
        };
        self.count()?;
        Ok(match message {
            Some(message) => self.hear(end, phase, message, fresh, say),
            None => self.close(end, Why::Malformed),
        })
    }

    fn hear(&mut self, end: EndId, phase: Phase, message: Message<'_>, fresh: u32, say: &mut Vec<u8>) -> Done {
        match (phase, message) {
            (Phase::AwaitName, Message::Name { other, name }) => self.take_name(end, other, name, fresh, say),
            (Phase::AwaitStatus(peer), Message::Status(b"ok")) => self.go(end, Phase::AwaitChallenge(peer)),
            (Phase::AwaitStatus(_), Message::Status(_)) => self.close(end, Why::StatusRefused),
            (Phase::AwaitChallenge(peer), Message::Challenge { challenge, other, name }) => {
                if name != self.peers.name(peer) {
                    return self.close(end, Why::WrongName);
                }
                if other.flags & HANDSHAKE_23 == 0 {
                    return self.close(end, Why::WrongFlags);
                }
                say_reply(say, fresh, &self.digest(challenge));
                self.go(end, Phase::AwaitAck { peer, challenge: fresh, other })
            }
            (Phase::AwaitAck { peer, challenge, other }, Message::Ack { digest }) => {
                if digest != self.digest(challenge) {
                    return self.close(end, Why::WrongDigest);
                }
                self.come_up(end, peer, other)
            }
            (Phase::AwaitReply { peer, challenge: own, other }, Message::Reply { challenge, digest }) => {
                if digest != self.digest(own) {
                    return self.close(end, Why::WrongDigest);
                }
                say_ack(say, &self.digest(challenge));
                self.come_up(end, peer, other)
            }
            _ => self.close(end, Why::Unexpected),
        }
    }

    fn take_name(&mut self, end: EndId, other: Other, name: &[u8], fresh: u32, say: &mut Vec<u8>) -> Done {
        let is_refused =
            other.flags & HANDSHAKE_23 == 0 || other.flags & NAME_ME != 0 || !is_good(name) || name == self.name;
        let peer = if is_refused { Err(NoPeer::Known) } else { self.peers.insert(name, Entry::In(end), MOST_ENTRIES) };
        let Ok(peer) = peer else {
            say.extend_from_slice(b"\0\x0csnot_allowed");
            return self.close(end, Why::Refused);
        };
        say.extend_from_slice(b"\0\x03sok");
        say_challenge(say, self.own, fresh, self.name);
        self.go(end, Phase::AwaitReply { peer, challenge: fresh, other })
    }

    fn come_up(&mut self, end: EndId, peer: Slot, other: Other) -> Done {
        *self.peers.entry(peer) = Entry::Up(end);
        let common = Other { flags: self.own.flags & other.flags, ..other };
        self.go(end, Phase::Up { peer, _common: common });
        Done { _closed: None, _is_up: true }
    }
}

// ---- the turns

const FRESH: u32 = 123_456_789;

/// A call of a node; the end is the one that it gave out last.
enum Call<'a> {
    Accept,
    Dial(&'a [u8]),
    Open,
    Frame(&'a [u8]),
    Lose,
}

fn calls_of(input: &[u8]) -> Vec<Call<'_>> {
    let (mut calls, mut rest) = (Vec::new(), input);
    while let [high, low, behind @ ..] = rest {
        let (body, next) = behind.split_at(usize::from(u16::from_be_bytes([*high, *low])));
        calls.push(match body[0] {
            b'I' => Call::Accept,
            b'D' => Call::Dial(&body[1..]),
            b'O' => Call::Open,
            b'F' => Call::Frame(&body[1..]),
            _ => Call::Lose,
        });
        rest = next;
    }
    calls
}

struct Bench<T> {
    node: Node<T>,
    end: EndId,
    say: Vec<u8>,
    sum: u64,
}

impl<T: Table> Bench<T> {
    fn new() -> Self {
        let node = Node {
            name: b"m@127.0.0.1",
            cookie: b"ABCDEFGHIJKLMNOPQRSTUVWXYZabcdefghijklmnopqrstuvwxyz0",
            own: Other { flags: 0x101000104, creation: 6 },
            steps: 0,
            ends: Vec::new(),
            open: Slots::new(),
            peers: T::new(),
        };
        Bench { node, end: 0, say: Vec::new(), sum: 0 }
    }

    fn make(&mut self, call: &Call<'_>) -> Result<(), StepError> {
        match call {
            Call::Accept => self.end = self.node.accept()?,
            Call::Dial(peer) => self.end = self.node.dial(peer)?,
            Call::Open => drop(self.node.open(self.end, &mut self.say)?),
            Call::Frame(body) => drop(self.node.frame(self.end, body, FRESH, &mut self.say)?),
            Call::Lose => drop(self.node.lose(self.end, Why::Ended)?),
        }
        self.sum += self.say.len() as u64;
        self.say.clear();
        Ok(())
    }

    fn play(&mut self, calls: &[Call<'_>], turns: u32) -> Result<(), StepError> {
        (0..turns).try_for_each(|_| calls.iter().try_for_each(|call| self.make(call)))
    }

    fn run(&mut self, kind: &str, input: &[u8], first: usize, turns: u32) -> Result<(), StepError> {
        let calls = calls_of(input);
        self.play(&calls[..first], 1)?;
        match kind {
            "calls" | "locked" => self.play(&calls[first..], turns)?,
            "lost" => {
                for _ in 0..turns {
                    let end = self.node.accept()?;
                    self.node.lose(end, Why::Ended)?;
                }
            }
            _ => {
                let peers = self.node.ends.len() as u32;
                for turn in 0..turns {
                    self.sum += self.node.tick(turn % peers)?.len() as u64;
                }
            }
        }
        Ok(())
    }
}

fn over<T: Table>(kind: &str, input: &[u8], first: usize, turns: u32) -> u64 {
    let mut bench = Bench::<T>::new();
    bench.run(kind, input, first, turns).expect("steps that are taken");
    bench.sum
}

fn main() {
    let words: Vec<String> = std::env::args().collect();
    let number = |place: usize| words[place].parse::<u32>().expect("a number");
    let (table, kind, first, turns) = (words[1].as_str(), words[2].as_str(), number(3) as usize, number(4));
    let mut input = Vec::new();
    std::io::stdin().read_to_end(&mut input).expect("what to do");
    let sum = match table {
        "tree" => over::<Tree>(kind, &input, first, turns),
        _ => over::<Hashed>(kind, &input, first, turns),
    };
    println!("{sum}");
}
