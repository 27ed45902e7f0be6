// SPDX-License-Identifier: Apache-2.0
//! The handshake of Erlang's distribution protocol over libdistnode, whose steps are proved to be those of its definition: a node, the
//! registry of a port mapper, and the port mapper's messages.
//!
//! There are no sockets, no clock and no random numbers in here: the caller owns them, reports what happened, and does what the reply
//! says. `examples/join.rs` is a whole program; docs/C_LIBRARY.md of the sources has the order of calls.

mod code;
mod epmd;
mod node;
mod registry;
mod state;

pub use code::{Error, Refused, Why};
pub use distnode_sys::DN_MANDATORY_25 as MANDATORY_25;
pub use epmd::{
    alive_answer, alive_request, names_request, port_answer, port_request, Info, HIDDEN, NORMAL,
};
pub use node::{cookie_digest, Node, Peer, Reply, Setup};
pub use registry::{Registry, Served};
pub use state::{End, Entry, Phase, Status};
