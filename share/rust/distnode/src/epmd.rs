// SPDX-License-Identifier: Apache-2.0
//! The messages to the port mapper (ERTS User's Guide, Distribution Protocol, EPMD Protocol).

use crate::code::{copied, done, Error};
use distnode_sys as sys;

/// A node that others list in `nodes()`.
pub const NORMAL: u8 = 0x4d;
/// A node that others list in `nodes(hidden)` alone.
pub const HIDDEN: u8 = 0x48;

/// The longest answer and question but a list of names; a longer one takes a second call.
const ROOM: usize = 1024;

/// What the port mapper knows of a node.
#[derive(Clone, Copy, Debug)]
pub struct Info {
    pub port: u16,
    /// The versions of the handshake that it knows.
    pub highest: u16,
    pub lowest: u16,
    /// `NORMAL` or `HIDDEN`.
    pub node_type: u8,
}

/// The frame by which a node registers under the part of its name before the `@`.
pub fn alive_request(info: &Info, alive: &[u8]) -> Result<Vec<u8>, Error> {
    let info = sys::dn_info {
        port: info.port,
        highest: info.highest,
        lowest: info.lowest,
        node_type: info.node_type,
        protocol: 0,
    };
    // SAFETY: each pointer leads to as many bytes as its length says.
    copied(ROOM, |room, len| unsafe {
        sys::dn_epmd_alive_request(
            &info,
            alive.as_ptr(),
            alive.len(),
            room.as_mut_ptr(),
            room.len(),
            len,
        )
    })
}

/// The creation in the answer to a registration; `None` where it was refused.
pub fn alive_answer(bytes: &[u8]) -> Result<Option<u32>, Error> {
    let (mut result, mut creation) = (0, 0);
    // SAFETY: as in `alive_request`.
    done(unsafe {
        sys::dn_epmd_alive_answer(bytes.as_ptr(), bytes.len(), &mut result, &mut creation)
    })?;
    Ok((result == 0).then_some(creation))
}

/// The frame that asks for a node.
pub fn port_request(alive: &[u8]) -> Result<Vec<u8>, Error> {
    // SAFETY: as in `alive_request`.
    copied(ROOM, |room, len| unsafe {
        sys::dn_epmd_port_request(
            alive.as_ptr(),
            alive.len(),
            room.as_mut_ptr(),
            room.len(),
            len,
        )
    })
}

/// What the port mapper says of a node; `None` where it knows none.
pub fn port_answer(bytes: &[u8]) -> Result<Option<Info>, Error> {
    let (mut result, mut it) = (0, sys::dn_info::default());
    // SAFETY: as in `alive_request`.
    done(unsafe { sys::dn_epmd_port_answer(bytes.as_ptr(), bytes.len(), &mut result, &mut it) })?;
    Ok((result == 0).then_some(Info {
        port: it.port,
        highest: it.highest,
        lowest: it.lowest,
        node_type: it.node_type,
    }))
}

/// The frame that asks for all names.
pub fn names_request() -> Result<Vec<u8>, Error> {
    // SAFETY: as in `alive_request`.
    copied(ROOM, |room, len| unsafe {
        sys::dn_epmd_names_request(room.as_mut_ptr(), room.len(), len)
    })
}
