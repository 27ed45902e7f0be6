// SPDX-License-Identifier: Apache-2.0
//! A hidden node in Rust: it registers with the port mapper, dials one node, accepts others, and keeps its links by ticks.
//!
//! usage: join NAME PEER SECONDS
//!
//! It prints a line when a peer comes up and when it goes down, and ends after so many seconds, or with the link to PEER. The
//! cookie is that of DISTNODE_COOKIE in the environment, else of $HOME/.erlang.cookie. The port mapper is the one at
//! ERL_EPMD_PORT, 4369 if unset. It answers `net_adm:ping`; all else that Erlang's processes say to it is dropped. Each connection
//! has a thread, and the threads use the node in turn.

use distnode::{
    alive_answer, alive_request, port_answer, port_request, End, Info, Node, Peer, Phase, Refused,
    Reply, Setup, Why, HIDDEN,
};
use std::collections::HashMap;
use std::error::Error;
use std::io::{ErrorKind, Read, Write};
use std::net::{Shutdown, TcpListener, TcpStream};
use std::sync::{Arc, Mutex, MutexGuard};
use std::time::{Duration, Instant};
use std::{env, fs, thread};

/// As an Erlang node of OTP 25 announces them, but for `DFLAG_PUBLISHED`.
const HIDDEN_FLAGS: u64 = 0x4_0307_0f94;
/// Those that OTP 25 requires of a peer.
const MANDATORY_25: u64 = 0x107_0f94;
/// A quarter of the peer's net_ticktime.
const TICK: Duration = Duration::from_secs(15);
/// How long a connect, an answer or a message of the handshake is waited for.
const PATIENCE: Duration = Duration::from_secs(8);
/// The most ends that are open at one time: a process has 1,024 descriptors by custom.
const MOST_OPEN: u32 = 512;
/// After so many ends the node gives back what it kept of those that are closed.
const FORGET_EACH: u32 = 65_536;

type Outcome<T> = Result<T, Box<dyn Error>>;

/// The part of a name before the `@`, and that behind it.
fn parts(name: &str) -> Outcome<(&str, &str)> {
    name.split_once('@')
        .ok_or_else(|| format!("{name} has no @").into())
}

fn be_patient(stream: TcpStream) -> Outcome<TcpStream> {
    stream.set_read_timeout(Some(PATIENCE))?;
    stream.set_write_timeout(Some(PATIENCE))?;
    Ok(stream)
}

fn connect(host: &str, port: u16) -> Outcome<TcpStream> {
    be_patient(TcpStream::connect((host, port))?)
}

fn cookie() -> Outcome<Vec<u8>> {
    match env::var("DISTNODE_COOKIE") {
        Ok(cookie) => Ok(cookie.into_bytes()),
        Err(_) => Ok(fs::read(format!("{}/.erlang.cookie", env::var("HOME")?))?),
    }
}

/// A random number of the system.
fn challenge() -> Outcome<u32> {
    let mut bytes = [0; 4];
    fs::File::open("/dev/urandom")?.read_exact(&mut bytes)?;
    Ok(u32::from_ne_bytes(bytes))
}

/// Registers, and returns the connection that the registration lasts as long as, and the creation.
fn register(name: &str, mapper: u16, port: u16) -> Outcome<(TcpStream, u32)> {
    let (alive, _) = parts(name)?;
    let mut stream = connect("127.0.0.1", mapper)?;
    stream.write_all(&alive_request(
        &Info {
            port,
            highest: 6,
            lowest: 5,
            node_type: HIDDEN,
        },
        alive.as_bytes(),
    )?)?;
    let mut answer = [0; 6];
    stream.read_exact(&mut answer)?;
    let creation = alive_answer(&answer)?.ok_or("the port mapper refuses the name")?;
    Ok((stream, creation))
}

/// Asks the port mapper of a peer's host for its port, and connects.
fn connect_to(peer: &str, mapper: u16) -> Outcome<TcpStream> {
    let (alive, host) = parts(peer)?;
    let mut asked = connect(host, mapper)?;
    asked.write_all(&port_request(alive.as_bytes())?)?;
    let mut answer = Vec::new();
    asked.read_to_end(&mut answer)?;
    let info = port_answer(&answer)?.ok_or("the port mapper knows no such node")?;
    connect(host, info.port)
}

/// The answer to a packet, if it is that of `net_adm:ping`: `{6, Pid, Unused, net_kernel}` (REG_SEND), and `{'$gen_call', {Pid, Tag},
/// {is_auth, Node}}`. `Node` is that of `Pid` and of `Tag`, which is a reference, or `[alias | Reference]`. The answer is
/// `{2, Unused, Pid}` (SEND), and `{Tag, yes}`. Each term has one form under the flags above (ERTS User's Guide, External Term Format).
fn answer_to(packet: &[u8]) -> Option<Vec<u8>> {
    let front = packet.strip_prefix(b"p\x83h\x04a\x06")?;
    let pid = front.get(..15 + usize::from(*front.get(2)?))?;
    let node = pid.strip_prefix(b"X")?.split_at(pid.len() - 13).0;
    let call = b"w\0w\x0anet_kernel\x83h\x03w\x09$gen_callh\x02";
    let behind = front[pid.len()..].strip_prefix(call)?.strip_prefix(pid)?;
    let tag = behind
        .strip_suffix(node)?
        .strip_suffix(b"h\x02w\x07is_auth")?;
    let reference = tag.strip_prefix(b"l\0\0\0\x01w\x05alias").unwrap_or(tag);
    let [b'Z', 0, words, rest @ ..] = reference else {
        return None;
    };
    let numbers = rest.strip_prefix(node)?;
    let is_whole = node[0] == b'w' && numbers.len() == 4 + 4 * usize::from(*words);
    is_whole.then(|| [b"p\x83h\x03a\x02w\0", pid, b"\x83h\x02", tag, b"w\x03yes"].concat())
}

/// What the threads use in turn: the node, and the connections that carry its ends.
struct Joined {
    node: Node,
    streams: HashMap<u32, Arc<TcpStream>>,
}

impl Joined {
    /// The end that `dial` or `incoming` gave out. Where another made room for it, that one's connection is closed, also where
    /// the newcomer is refused.
    fn new_end(&mut self, answer: Result<Reply, Refused>) -> Outcome<u32> {
        self.close(match &answer {
            Ok(reply) => reply.closed,
            Err(refused) => refused.closed,
        });
        let end = answer?.end;
        if end % FORGET_EACH == 0 {
            self.node.forget(end)?;
        }
        Ok(end)
    }

    /// Closes the connection of an end that is closed. The thread that reads from it sees that it ended.
    fn close(&mut self, closed: Option<(u32, Why)>) {
        if let Some(stream) = closed.and_then(|(end, _)| self.streams.remove(&end)) {
            // (it fails where the peer has closed it before)
            let _ = stream.shutdown(Shutdown::Both);
        }
    }
}

/// A connection that carries one end of the node.
struct Link {
    joined: Arc<Mutex<Joined>>,
    stream: Arc<TcpStream>,
    end: u32,
    held: Vec<u8>,
}

impl Link {
    fn dial(joined: &Arc<Mutex<Joined>>, peer: &str, mapper: u16) -> Outcome<Self> {
        let mut all = joined.lock().unwrap();
        let answer = all.node.dial(peer.as_bytes(), true);
        let end = all.new_end(answer)?;
        // (others use the node while this thread connects)
        drop(all);
        let connected = connect_to(peer, mapper);
        let mut all = joined.lock().unwrap();
        match connected {
            Ok(stream) => Ok(Self::new(joined, &mut all, stream, end)),
            Err(error) => {
                // (refused where the end has made room for another)
                let _ = all.node.lost(end, Why::DialFailed);
                Err(error)
            }
        }
    }

    fn accept(joined: &Arc<Mutex<Joined>>, stream: TcpStream) -> Outcome<Self> {
        let stream = be_patient(stream)?;
        let mut all = joined.lock().unwrap();
        let answer = all.node.incoming();
        let end = all.new_end(answer)?;
        Ok(Self::new(joined, &mut all, stream, end))
    }

    fn new(joined: &Arc<Mutex<Joined>>, all: &mut Joined, stream: TcpStream, end: u32) -> Self {
        let stream = Arc::new(stream);
        all.streams.insert(end, Arc::clone(&stream));
        Self {
            joined: Arc::clone(joined),
            stream,
            end,
            held: Vec::new(),
        }
    }

    fn all(&self) -> MutexGuard<'_, Joined> {
        self.joined.lock().unwrap()
    }

    /// Does what the reply to a step wants: writes, and closes.
    fn say(&self, reply: &Reply) -> Outcome<()> {
        let written = (&*self.stream).write_all(&reply.say);
        self.all().close(reply.closed);
        Ok(written?)
    }

    /// Reads what comes behind what is held; `false` where the connection ended.
    fn read(&mut self) -> std::io::Result<bool> {
        let mut room = [0; 65_536];
        let count = (&*self.stream).read(&mut room)?;
        self.held.extend_from_slice(&room[..count]);
        Ok(count > 0)
    }

    /// Drives the handshake until the end is up. What came behind its last frame is held.
    fn come_up(&mut self) -> Outcome<Peer> {
        loop {
            let challenge = challenge()?;
            let answer = self.all().node.received(self.end, &self.held, challenge)?;
            let Some(reply) = answer else {
                if !self.read()? {
                    return Err("closed by the peer".into());
                }
                continue;
            };
            self.held.drain(..reply.taken);
            self.say(&reply)?;
            match reply.closed {
                Some((end, why)) if end == self.end => return Err(format!("closed: {why}").into()),
                _ if reply.up => {
                    let up = self.all().node.peer_of(self.end)?;
                    return up.ok_or_else(|| "the peer is gone".into());
                }
                _ => {}
            }
        }
    }

    /// Drops what is whole of the packets that came, answers those of `net_adm:ping`, and returns whether a tick was among them.
    fn take_packets(&mut self) -> std::io::Result<bool> {
        let mut is_tick = false;
        while let Some(head) = self.held.first_chunk::<4>() {
            let size = u32::from_be_bytes(*head) as usize;
            if self.held.len() < 4 + size {
                break;
            }
            if let Some(answer) = answer_to(&self.held[4..4 + size]) {
                let head = (answer.len() as u32).to_be_bytes();
                (&*self.stream).write_all(&[&head, &answer[..]].concat())?;
            }
            self.held.drain(..4 + size);
            is_tick |= size == 0;
        }
        Ok(is_tick)
    }

    fn tick(&self) -> Outcome<()> {
        let reply = self.all().node.tick(self.end)?;
        self.say(&reply)
    }

    /// Keeps the link until it ends or the time is over.
    fn keep(&mut self, until: Instant) -> Outcome<Why> {
        self.stream
            .set_read_timeout(Some(Duration::from_millis(100)))?;
        let mut due = Instant::now() + TICK;
        while Instant::now() < until {
            match self.read() {
                Ok(true) => {}
                Ok(false) => return Ok(Why::Ended),
                Err(error)
                    if matches!(error.kind(), ErrorKind::WouldBlock | ErrorKind::TimedOut) => {}
                Err(_) => return Ok(Why::ReadFailed),
            }
            let Ok(is_tick) = self.take_packets() else {
                return Ok(Why::WriteFailed);
            };
            // (a tick is answered by one)
            if is_tick || due <= Instant::now() {
                due = Instant::now() + TICK;
                if self.tick().is_err() {
                    return Ok(Why::WriteFailed);
                }
            }
        }
        Ok(Why::GaveUp)
    }

    /// Gives the end up, and returns why it is closed: another step may have closed it before.
    fn lose(&self, why: Why) -> Why {
        let mut all = self.all();
        all.close(Some((self.end, why)));
        if all.node.lost(self.end, why).is_ok() {
            return why;
        }
        match all.node.end(self.end) {
            Ok(Some(End {
                phase: Phase::Closed(why),
                ..
            })) => why,
            _ => why,
        }
    }

    /// Carries the end: its handshake, and then its packets, until it is closed or the time is over.
    fn carry(mut self, until: Instant) -> Outcome<()> {
        let up = match self.come_up() {
            Ok(up) => up,
            Err(error) => {
                self.lose(Why::GaveUp);
                return Err(error);
            }
        };
        let name = String::from_utf8_lossy(&up.name);
        println!("up {name} {:016x} {:?}", up.common, up.creation);
        let why = self.keep(until).unwrap_or(Why::ReadFailed);
        println!("down {name} {}", self.lose(why));
        Ok(())
    }
}

/// Accepts for as long as the process lasts. A peer that does not come up is none that a line is printed for.
fn accept_all(listener: &TcpListener, joined: &Arc<Mutex<Joined>>, until: Instant) {
    for stream in listener.incoming().flatten() {
        if let Ok(link) = Link::accept(joined, stream) {
            thread::spawn(move || {
                let _ = link.carry(until);
            });
        }
    }
}

fn main() -> Outcome<()> {
    let words: Vec<String> = env::args().skip(1).collect();
    let [name, peer, seconds] = &words[..] else {
        return Err("usage: join NAME PEER SECONDS".into());
    };
    let until = Instant::now() + Duration::from_secs_f64(seconds.parse()?);
    let mapper = env::var("ERL_EPMD_PORT").map_or(Ok(4369), |it| it.parse())?;
    let listener = TcpListener::bind(("127.0.0.1", 0))?;
    let (_registration, creation) = register(name, mapper, listener.local_addr()?.port())?;
    let node = Node::new(
        name.as_bytes(),
        &cookie()?,
        &Setup {
            flags: HIDDEN_FLAGS,
            required: MANDATORY_25,
            creation,
            most_open_ends: MOST_OPEN,
            ..Setup::default()
        },
    )?;
    let joined = Arc::new(Mutex::new(Joined {
        node,
        streams: HashMap::new(),
    }));
    let shared = Arc::clone(&joined);
    thread::spawn(move || accept_all(&listener, &shared, until));

    let link = Link::dial(&joined, peer, mapper)?;
    let opened = link.all().node.opened(link.end)?;
    link.say(&opened)?;
    link.carry(until)
}
