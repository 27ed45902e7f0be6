// SPDX-License-Identifier: Apache-2.0
//! How ends and peers stand, and the statuses of the handshake.

use crate::code::Why;
use distnode_sys as sys;

/// A status of the handshake, as one side says it and the other hears it.
#[derive(Clone, Copy, Debug, PartialEq, Eq, Hash)]
pub enum Status {
    /// The handshake goes on.
    Ok,
    /// It goes on, and the attempt of the side that says so is given up.
    OkSimultaneous,
    /// It does not, since the attempt of the side that says so goes on.
    Nok,
    /// It does not, since the name or its flags are refused.
    NotAllowed,
    /// There is a connection already, and is it to be given up?
    Alive,
    /// It is, and the handshake goes on.
    True,
    /// It is not.
    False,
}

impl Status {
    /// The status of this number; `None` where there was none.
    pub(crate) fn of(number: sys::dn_status) -> Option<Self> {
        Some(match number {
            sys::DN_STATUS_OK => Self::Ok,
            sys::DN_STATUS_OK_SIMULTANEOUS => Self::OkSimultaneous,
            sys::DN_STATUS_NOK => Self::Nok,
            sys::DN_STATUS_NOT_ALLOWED => Self::NotAllowed,
            sys::DN_STATUS_ALIVE => Self::Alive,
            sys::DN_STATUS_TRUE => Self::True,
            sys::DN_STATUS_FALSE => Self::False,
            _ => return None,
        })
    }
}

/// How an end stands: what it awaits of the other side, where it is open and not up.
#[derive(Clone, Copy, Debug, PartialEq, Eq, Hash)]
pub enum Phase {
    /// It is closed, for this cause; `Why::Ended` where the cause was forgotten.
    Closed(Why),
    /// Dialled: its connection, which is not there yet.
    Connection,
    /// Accepted: the peer's name, so that the peer is not known yet.
    Name,
    /// Dialled: a status, to the name that was said.
    Status,
    /// Dialled: a challenge.
    Challenge,
    /// Dialled: an acknowledgement of the reply that was said.
    Ack,
    /// Accepted: true or false, to the status alive that was said.
    TrueOrFalse,
    /// Accepted: a complement to the old form of name.
    Complement,
    /// Accepted: a reply to the challenge that was said.
    Reply,
    /// Dialled and superseded: its connection, with which it is closed.
    DoomedDialing,
    /// Dialled and superseded: a status, with which it is closed.
    Doomed,
    /// It is up.
    Up,
}

impl Phase {
    /// The phase of an end; `None` where its number was never given out.
    pub(crate) fn of(end: &sys::dn_end) -> Option<Self> {
        Some(match end.phase {
            sys::DN_PHASE_CLOSED => return Why::of(end.why).map(Self::Closed),
            sys::DN_PHASE_CONNECTION => Self::Connection,
            sys::DN_PHASE_NAME => Self::Name,
            sys::DN_PHASE_STATUS => Self::Status,
            sys::DN_PHASE_CHALLENGE => Self::Challenge,
            sys::DN_PHASE_ACK => Self::Ack,
            sys::DN_PHASE_TRUE_OR_FALSE => Self::TrueOrFalse,
            sys::DN_PHASE_COMPLEMENT => Self::Complement,
            sys::DN_PHASE_REPLY => Self::Reply,
            sys::DN_PHASE_DOOMED_DIALING => Self::DoomedDialing,
            sys::DN_PHASE_DOOMED => Self::Doomed,
            sys::DN_PHASE_UP => Self::Up,
            _ => return None,
        })
    }
}

/// An end.
#[derive(Clone, Debug, PartialEq, Eq)]
pub struct End {
    pub phase: Phase,
    /// Its peer's name, also before it is up: the one that was dialled, or that came.
    pub peer: Option<Vec<u8>>,
}

/// The ends that hold a peer. One that was superseded, and is closed with the next that it hears, holds nothing.
#[derive(Clone, Copy, Debug, PartialEq, Eq, Hash)]
pub enum Entry {
    /// None.
    Idle,
    /// One that was dialled, and is not up.
    Out { pending: u32 },
    /// One that was accepted and took the peer's name, and is not up.
    In { pending: u32 },
    /// One that is up.
    Up { up: u32 },
    /// One that is up, and one that was accepted, on which the peer came anew and which is not up.
    Challenged { up: u32, pending: u32 },
}

impl Entry {
    pub(crate) fn of(entry: &sys::dn_entry) -> Self {
        let (up, pending) = (entry.up, entry.pending);
        match entry.state {
            sys::DN_STATE_OUT => Self::Out { pending },
            sys::DN_STATE_IN => Self::In { pending },
            sys::DN_STATE_UP => Self::Up { up },
            sys::DN_STATE_CHALLENGED => Self::Challenged { up, pending },
            _ => Self::Idle,
        }
    }
}
