// SPDX-License-Identifier: Apache-2.0
//! What a call refuses, and why an end is closed.

use distnode_sys as sys;
use std::fmt;

/// A call that answered another code than `DN_OK`: its number in the header, which has its meaning.
#[derive(Clone, Copy, PartialEq, Eq, Hash)]
pub struct Error(u32);

impl Error {
    /// The struct holds no node, or no registry.
    pub const NOT_A_NODE: Self = Self(sys::DN_NOT_A_NODE);
    /// There is no memory. The same call does its work once there is some.
    pub const NO_MEMORY: Self = Self(sys::DN_NO_MEMORY);
    /// A cause, a place or a version names nothing.
    pub const NO_SUCH: Self = Self(sys::DN_NO_SUCH);
    /// A body has more than 65,535 bytes, and no frame can have it.
    pub const TOO_LONG: Self = Self(sys::DN_TOO_LONG);
    /// A peer that is up would get another cookie.
    pub const PEER_IN_USE: Self = Self(sys::DN_PEER_IN_USE);
    /// The number was never given out.
    pub const NO_SUCH_END: Self = Self(sys::DN_NO_SUCH_END);
    /// The end is closed.
    pub const GONE: Self = Self(sys::DN_GONE);
    /// The end is open, and takes no such event now.
    pub const WRONG_PHASE: Self = Self(sys::DN_WRONG_PHASE);
    /// A dial to a peer that has an end.
    pub const BUSY: Self = Self(sys::DN_BUSY);
    /// The node has made its steps, or given out its ends.
    pub const SPENT: Self = Self(sys::DN_SPENT);
    /// The ends that may be open are up, or no entry or no cookie is left.
    pub const FULL: Self = Self(sys::DN_FULL);
    /// An end is open, and the node does not begin anew.
    pub const OPEN_ENDS: Self = Self(sys::DN_OPEN_ENDS);
    /// An end that is up would be closed, and has to be lost first.
    pub const SHOWN_END: Self = Self(sys::DN_SHOWN_END);
    /// A setup announces `DFLAG_MANDATORY_25_DIGEST` without the flags that it means.
    pub const HALF_FLAGS: Self = Self(sys::DN_HALF_FLAGS);

    /// The code's number in the header.
    pub fn number(self) -> u32 {
        self.0
    }

    /// The code's word, as `NoMemory`.
    pub fn name(self) -> String {
        word(|room, len| unsafe { sys::dn_code_name(self.0, room.as_mut_ptr(), room.len(), len) })
    }
}

impl fmt::Display for Error {
    fn fmt(&self, f: &mut fmt::Formatter<'_>) -> fmt::Result {
        f.write_str(&self.name())
    }
}

impl fmt::Debug for Error {
    fn fmt(&self, f: &mut fmt::Formatter<'_>) -> fmt::Result {
        write!(f, "Error({}, {})", self.0, self.name())
    }
}

impl std::error::Error for Error {}

/// A newcomer that `dial` or `incoming` refused.
#[derive(Clone, Copy, Debug, PartialEq, Eq, Hash)]
pub struct Refused {
    pub error: Error,
    /// The end that was given up to make room all the same, and why: its connection is to be closed, as where a reply reports it.
    pub closed: Option<(u32, Why)>,
}

impl fmt::Display for Refused {
    fn fmt(&self, f: &mut fmt::Formatter<'_>) -> fmt::Result {
        self.error.fmt(f)
    }
}

impl std::error::Error for Refused {}

/// `Ok` where a call did its work.
pub(crate) fn done(code: u32) -> Result<(), Error> {
    if code == sys::DN_OK {
        Ok(())
    } else {
        Err(Error(code))
    }
}

/// Why an end is closed. The caller reports a loss with one of the first five.
#[derive(Clone, Copy, Debug, PartialEq, Eq, Hash)]
#[repr(u32)]
pub enum Why {
    /// The connection ended.
    Ended = 1,
    ReadFailed,
    WriteFailed,
    /// The caller waited no longer.
    GaveUp,
    /// The connection could not be made.
    DialFailed,
    /// What came is no message.
    Malformed,
    /// What came is a message of another phase.
    Unexpected,
    /// The peer has another name than the one that was dialled.
    WrongName,
    /// The peer lacks a required flag.
    WrongFlags,
    /// The peer has another cookie.
    WrongDigest,
    /// The peer said no.
    StatusRefused,
    /// The name failed a check, and this node said no.
    Refused,
    /// Both dialled, and the other connection stays.
    Crossed,
    /// The peer has connected anew.
    Replaced,
    NoMemory,
}

impl Why {
    const ALL: [Self; 15] = [
        Self::Ended,
        Self::ReadFailed,
        Self::WriteFailed,
        Self::GaveUp,
        Self::DialFailed,
        Self::Malformed,
        Self::Unexpected,
        Self::WrongName,
        Self::WrongFlags,
        Self::WrongDigest,
        Self::StatusRefused,
        Self::Refused,
        Self::Crossed,
        Self::Replaced,
        Self::NoMemory,
    ];

    /// The cause of this number; `None` where a reply closed nothing.
    pub(crate) fn of(number: u32) -> Option<Self> {
        Self::ALL.into_iter().find(|it| *it as u32 == number)
    }
}

impl fmt::Display for Why {
    fn fmt(&self, f: &mut fmt::Formatter<'_>) -> fmt::Result {
        f.write_str(&word(|room, len| unsafe {
            sys::dn_why_name(*self as u32, room.as_mut_ptr(), room.len(), len)
        }))
    }
}

/// A word of the library: 16 bytes of room are enough for any.
fn word(call: impl Fn(&mut [u8; 16], &mut usize) -> u32) -> String {
    let (mut room, mut len) = ([0; 16], 0);
    match call(&mut room, &mut len) {
        sys::DN_OK => String::from_utf8_lossy(&room[..len]).into_owned(),
        _ => String::from("Unknown"),
    }
}

/// What a call copies into a room: once more with the length that it returns, where the first room is too short.
pub(crate) fn copied(
    most: usize,
    call: impl Fn(&mut [u8], &mut usize) -> u32,
) -> Result<Vec<u8>, Error> {
    let (mut room, mut len) = (vec![0; most.max(1)], 0);
    let mut code = call(&mut room, &mut len);
    if code == sys::DN_NO_ROOM {
        room.resize(len, 0);
        code = call(&mut room, &mut len);
    }
    done(code)?;
    room.truncate(len);
    Ok(room)
}
