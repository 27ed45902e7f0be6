// SPDX-License-Identifier: Apache-2.0
//! What a port mapper knows and answers, for a caller that takes its place.

use crate::code::{copied, done, Error};
use distnode_sys as sys;
use std::ptr;

/// The longest answer but a list of names; a longer one takes a second call.
const ROOM: usize = 65_536;

/// What became of a request.
#[derive(Clone, Debug)]
pub struct Served {
    /// What is to be written on its connection.
    pub say: Vec<u8>,
    /// How many bytes were taken.
    pub taken: usize,
    /// The connection is to be kept, and its end reported by `closed`; else it is to be closed once the answer was written.
    pub is_registered: bool,
}

/// The registry of a port mapper. It stays on one thread, and is let go when it is dropped.
pub struct Registry(Box<sys::dn_registry>);

impl Registry {
    /// A registry without nodes, of the port mapper at this port. The first node that is accepted gets the creation `first`.
    pub fn new(port: u16, first: u32) -> Result<Self, Error> {
        let mut registry = Box::new(sys::dn_registry {
            desk: ptr::null_mut(),
            mark: 0,
        });
        // SAFETY: the registry is all zero.
        done(unsafe { sys::dn_registry_new(&mut *registry, port, first) })?;
        Ok(Self(registry))
    }

    /// Answers the request at the front of what came on a connection, whose number is used for no other; `None` where it has not come
    /// whole.
    pub fn asked(&mut self, connection: u64, bytes: &[u8]) -> Result<Option<Served>, Error> {
        let mut it = sys::dn_served::default();
        let registry: *mut sys::dn_registry = &mut *self.0;
        // SAFETY: the registry was made, and the bytes are as many as is said.
        let code = unsafe {
            sys::dn_registry_asked(registry, connection, bytes.as_ptr(), bytes.len(), &mut it)
        };
        if code == sys::DN_AWAITS {
            return Ok(None);
        }
        done(code)?;
        // SAFETY: the same, with a room for the bytes.
        let say = copied(ROOM, |room, len| unsafe {
            sys::dn_registry_say(registry, room.as_mut_ptr(), room.len(), len)
        })?;
        Ok(Some(Served {
            say,
            taken: it.taken,
            is_registered: it.registered != 0,
        }))
    }

    /// A connection is closed: what was registered on it is dropped.
    pub fn closed(&mut self, connection: u64) -> Result<(), Error> {
        // SAFETY: the registry was made.
        done(unsafe { sys::dn_registry_closed(&mut *self.0, connection) })
    }
}

impl Drop for Registry {
    fn drop(&mut self) {
        // SAFETY: the registry was made, and nobody calls it afterwards.
        unsafe { sys::dn_registry_free(&mut *self.0) };
    }
}
