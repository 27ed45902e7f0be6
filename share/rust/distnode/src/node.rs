// SPDX-License-Identifier: Apache-2.0
//! A node: its setup, its steps, and who is up.

use crate::code::{copied, done, Error, Refused, Why};
use crate::state::{End, Entry, Phase, Status};
use distnode_sys as sys;
use std::ptr;

/// A name has at most so many bytes.
const LONGEST_NAME: usize = 255;
/// The longest frame that a node says is shorter.
const BODY_ROOM: usize = 1024;

/// What a node is set up with, apart from its name and its cookie. Fields that are 0 have their usual values.
#[derive(Clone, Copy, Debug, Default)]
pub struct Setup {
    /// What it announces; the flags of the handshake's version are added and removed as they must be.
    pub flags: u64,
    /// What it requires of a peer, in addition to those of the version.
    pub required: u64,
    /// The number of this incarnation, as the port mapper answered it.
    pub creation: u32,
    /// The highest version of the handshake that it knows: 5 or 6; 0 means 6.
    pub version: u32,
    /// Only peers that `allow` names may connect.
    pub limited: bool,
    /// The most ends that it ever gives out; 0 means 4,294,967,295.
    pub most_ends: u32,
    /// The most steps that it makes, losses not counted; 0 means 2^64 - 1.
    pub most_steps: u64,
    /// The most peers with which it has or makes a connection at one time; 0 means 65,536.
    pub most_entries: u32,
    /// The most ends that are open at one time; 0 means 65,536. Beyond them a newcomer finds room as long as one is not
    /// up.
    pub most_open_ends: u32,
    /// The flags that `DFLAG_MANDATORY_25_DIGEST` of a peer means: [`crate::MANDATORY_25`], or 0 for none.
    pub mandatory_25: u64,
}

impl Setup {
    fn as_given(&self) -> sys::dn_setup {
        sys::dn_setup {
            flags: self.flags,
            required: self.required,
            creation: self.creation,
            version: self.version,
            limited: self.limited.into(),
            most_ends: self.most_ends,
            most_steps: self.most_steps,
            most_entries: self.most_entries,
            most_open_ends: self.most_open_ends,
            mandatory_25: self.mandatory_25,
        }
    }
}

/// What a step did; of `ready` and `ready_body`, what it would do.
#[derive(Clone, Debug)]
pub struct Reply {
    /// The event's end, or the one that was given out.
    pub end: u32,
    /// What is to be written on its connection.
    pub say: Vec<u8>,
    /// How many of the bytes that were given were taken.
    pub taken: usize,
    /// An end that was closed, this one or another, and why: its connection is to be closed, once what is to be said was written.
    pub closed: Option<(u32, Why)>,
    /// This end came up: what follows on its connection is the caller's.
    pub up: bool,
    /// Where it came up: the flags that both announced.
    pub common: u64,
    /// Where it came up: the peer's creation, known of a peer of version 6.
    pub creation: Option<u32>,
}

impl Reply {
    fn of(it: &sys::dn_reply, say: Vec<u8>) -> Self {
        Self {
            end: it.id,
            say,
            taken: it.taken,
            closed: closed_end(it),
            up: it.up != 0,
            common: it.common,
            creation: (it.has_creation != 0).then_some(it.creation),
        }
    }
}

/// The end that a reply reports as closed, and why.
fn closed_end(it: &sys::dn_reply) -> Option<(u32, Why)> {
    Why::of(it.closed).map(|why| (it.closed_id, why))
}

/// A peer that is up.
#[derive(Clone, Debug)]
pub struct Peer {
    pub name: Vec<u8>,
    pub end: u32,
    /// The flags that both announced.
    pub common: u64,
    /// Known of a peer of version 6.
    pub creation: Option<u32>,
}

/// A node. It stays where it is in memory, may move to another thread, and is let go when it is dropped.
pub struct Node(Box<sys::dn_node>);

// SAFETY: the header allows a node to move between threads where calls are put in order, which `&mut self` does.
unsafe impl Send for Node {}

impl Node {
    /// Makes a node of this name, with this cookie for each peer that has none of its own. The text of a cookie is that of its file.
    pub fn new(name: &[u8], cookie: &[u8], setup: &Setup) -> Result<Self, Error> {
        let mut node = Box::new(sys::dn_node {
            guest: ptr::null_mut(),
            mark: 0,
        });
        let setup = setup.as_given();
        // (name and cookie may be the caller's same bytes, which no two pointers of a call lead to)
        let cookie = cookie.to_vec();
        // SAFETY: the node is all zero, and each pointer leads to as many bytes as its length says.
        done(unsafe {
            sys::dn_node_new(
                &mut *node,
                name.as_ptr(),
                name.len(),
                cookie.as_ptr(),
                cookie.len(),
                &setup,
            )
        })?;
        Ok(Self(node))
    }

    /// Begins anew, with the setup, the cookies and the peers that may connect: ends get their numbers from 0 on again. Refused
    /// as `OPEN_ENDS` while an end is open.
    pub fn renew(&mut self) -> Result<(), Error> {
        // SAFETY: the node was made.
        done(unsafe { sys::dn_node_renew(&mut *self.0) })
    }

    /// Lets this peer connect, and from the first call on only peers that were named so. At any time; a peer that is connected
    /// stays so.
    pub fn allow(&mut self, peer: &[u8]) -> Result<(), Error> {
        // SAFETY: as in `new`, of a node that was made.
        done(unsafe { sys::dn_node_allow(&mut *self.0, peer.as_ptr(), peer.len()) })
    }

    /// Lets this peer connect no more, where the peers that may are named. One that is connected stays so.
    pub fn disallow(&mut self, peer: &[u8]) -> Result<(), Error> {
        // SAFETY: as in `allow`.
        done(unsafe { sys::dn_node_disallow(&mut *self.0, peer.as_ptr(), peer.len()) })
    }

    /// Keeps a cookie for this peer alone. Refused as `PEER_IN_USE` while the peer is connected, where it is another cookie.
    pub fn set_cookie(&mut self, peer: &[u8], cookie: &[u8]) -> Result<(), Error> {
        let cookie = cookie.to_vec();
        // SAFETY: as in `allow`.
        done(unsafe {
            sys::dn_node_cookie(
                &mut *self.0,
                peer.as_ptr(),
                peer.len(),
                cookie.as_ptr(),
                cookie.len(),
            )
        })
    }

    /// Takes away the cookie that this peer has of its own. Refused as `PEER_IN_USE` while the peer is connected.
    pub fn remove_cookie(&mut self, peer: &[u8]) -> Result<(), Error> {
        // SAFETY: as in `allow`.
        done(unsafe { sys::dn_node_no_cookie(&mut *self.0, peer.as_ptr(), peer.len()) })
    }

    /// Changes the cookie of each peer that has none of its own. Refused as `PEER_IN_USE` while one of those is connected.
    pub fn set_usual_cookie(&mut self, cookie: &[u8]) -> Result<(), Error> {
        // SAFETY: as in `allow`.
        done(unsafe { sys::dn_node_usual_cookie(&mut *self.0, cookie.as_ptr(), cookie.len()) })
    }

    /// Reads the reply to a step that was made, with the bytes that it says.
    fn reply(&mut self, it: &sys::dn_reply) -> Result<Reply, Error> {
        let node: *mut sys::dn_node = &mut *self.0;
        let say = match it.say {
            0 => Vec::new(),
            // SAFETY: as in `allow`, with a room for the bytes.
            most => copied(most, |room, len| unsafe {
                sys::dn_node_say(node, room.as_mut_ptr(), room.len(), len)
            })?,
        };
        Ok(Reply::of(it, say))
    }

    fn step(
        &mut self,
        call: impl FnOnce(&mut sys::dn_node, &mut sys::dn_reply) -> u32,
    ) -> Result<Reply, Error> {
        let mut it = sys::dn_reply::default();
        done(call(&mut self.0, &mut it))?;
        self.reply(&it)
    }

    /// A step that gives out an end, whose reply says with every code which end made room.
    fn newcomer(
        &mut self,
        call: impl FnOnce(&mut sys::dn_node, &mut sys::dn_reply) -> u32,
    ) -> Result<Reply, Refused> {
        let mut it = sys::dn_reply::default();
        let code = call(&mut self.0, &mut it);
        let closed = closed_end(&it);
        done(code)
            .and_then(|()| self.reply(&it))
            .map_err(|error| Refused { error, closed })
    }

    /// The node is to connect to this peer: the reply has a new end, and may name another that made room for it; so may the
    /// refusal. `is_new` opens by the name `N` of version 6, else by `n`.
    pub fn dial(&mut self, peer: &[u8], is_new: bool) -> Result<Reply, Refused> {
        // SAFETY: as in `allow`.
        self.newcomer(|node, reply| unsafe {
            sys::dn_node_dial(node, peer.as_ptr(), peer.len(), is_new.into(), reply)
        })
    }

    /// The connection of a dialled end is there.
    pub fn opened(&mut self, end: u32) -> Result<Reply, Error> {
        // SAFETY: as in `allow`.
        self.step(|node, reply| unsafe { sys::dn_node_opened(node, end, reply) })
    }

    /// A connection was accepted: the reply has a new end, and may name another that made room for it; so may the refusal.
    pub fn incoming(&mut self) -> Result<Reply, Refused> {
        // SAFETY: as in `allow`.
        self.newcomer(|node, reply| unsafe { sys::dn_node_incoming(node, reply) })
    }

    /// Takes the frame at the front of what came; `None` where it has not come whole. `challenge` is a random number, drawn anew.
    pub fn received(
        &mut self,
        end: u32,
        bytes: &[u8],
        challenge: u32,
    ) -> Result<Option<Reply>, Error> {
        // SAFETY: as in `allow`.
        let step = self.step(|node, reply| unsafe {
            sys::dn_node_received(node, end, bytes.as_ptr(), bytes.len(), challenge, reply)
        });
        match step {
            Err(error) if error.number() == sys::DN_AWAITS => Ok(None),
            other => other.map(Some),
        }
    }

    /// Takes one frame without its length, for a caller whose sockets take lengths off. `bodies` has what it says.
    pub fn received_body(&mut self, end: u32, body: &[u8], challenge: u32) -> Result<Reply, Error> {
        // SAFETY: as in `allow`.
        self.step(|node, reply| unsafe {
            sys::dn_node_body(node, end, body.as_ptr(), body.len(), challenge, reply)
        })
    }

    /// What `received` would answer to these bytes and this challenge; nothing is done, and `say` of the reply is empty. Where
    /// `up` is true, the caller looks by `end` which peer that is, and lets it in by `received` with the same bytes and the
    /// same challenge, or refuses it by `lost` with `Why::GaveUp`.
    pub fn ready(
        &mut self,
        end: u32,
        bytes: &[u8],
        challenge: u32,
    ) -> Result<Option<Reply>, Error> {
        let mut it = sys::dn_reply::default();
        let node: *mut sys::dn_node = &mut *self.0;
        // SAFETY: as in `allow`.
        let code = unsafe {
            sys::dn_node_ready(node, end, bytes.as_ptr(), bytes.len(), challenge, &mut it)
        };
        if code == sys::DN_AWAITS {
            return Ok(None);
        }
        done(code)?;
        Ok(Some(Reply::of(&it, Vec::new())))
    }

    /// What `received_body` would answer, as `ready` returns what `received` would.
    pub fn ready_body(&mut self, end: u32, body: &[u8], challenge: u32) -> Result<Reply, Error> {
        let mut it = sys::dn_reply::default();
        let node: *mut sys::dn_node = &mut *self.0;
        // SAFETY: as in `allow`.
        done(unsafe {
            sys::dn_node_ready_body(node, end, body.as_ptr(), body.len(), challenge, &mut it)
        })?;
        Ok(Reply::of(&it, Vec::new()))
    }

    /// The connection of an end is lost or given up.
    pub fn lost(&mut self, end: u32, why: Why) -> Result<Reply, Error> {
        // SAFETY: as in `allow`.
        self.step(|node, reply| unsafe { sys::dn_node_lost(node, end, why as u32, reply) })
    }

    /// A tick is due on an end that is up.
    pub fn tick(&mut self, end: u32) -> Result<Reply, Error> {
        // SAFETY: as in `allow`.
        self.step(|node, reply| unsafe { sys::dn_node_tick(node, end, reply) })
    }

    /// Forgets why the ends below this number were closed, and gives back the memory that was kept of them. Open ends stay as
    /// they are. A node that runs for long calls it now and then, as with the number of its newest end.
    pub fn forget(&mut self, below: u32) -> Result<(), Error> {
        // SAFETY: the node was made.
        done(unsafe { sys::dn_node_forget(&mut *self.0, below) })
    }

    /// The frames that the newest step says, each without its length, and each to be written by itself. A tick is none of them:
    /// there an empty packet is to be written.
    pub fn bodies(&mut self) -> Result<Vec<Vec<u8>>, Error> {
        let node: *mut sys::dn_node = &mut *self.0;
        let mut bodies = Vec::new();
        loop {
            // SAFETY: as in `allow`, with a room for the bytes.
            let body = copied(BODY_ROOM, |room, len| unsafe {
                sys::dn_node_say_body(node, bodies.len(), room.as_mut_ptr(), room.len(), len)
            });
            match body {
                Err(Error::NO_SUCH) => return Ok(bodies),
                other => bodies.push(other?),
            }
        }
    }

    /// The status that the newest step said, and the one that it heard: so it is known why a peer said no.
    pub fn status(&mut self) -> Result<(Option<Status>, Option<Status>), Error> {
        let (mut said, mut heard) = (0, 0);
        // SAFETY: the node was made.
        done(unsafe { sys::dn_node_status(&mut *self.0, &mut said, &mut heard) })?;
        Ok((Status::of(said), Status::of(heard)))
    }

    /// The ends that hold a peer.
    pub fn entry(&mut self, peer: &[u8]) -> Result<Entry, Error> {
        let mut it = sys::dn_entry::default();
        // SAFETY: as in `allow`.
        done(unsafe { sys::dn_node_entry(&mut *self.0, peer.as_ptr(), peer.len(), &mut it) })?;
        Ok(Entry::of(&it))
    }

    /// How an end stands, and who its peer is, also before it is up; `None` where the number was never given out.
    pub fn end(&mut self, end: u32) -> Result<Option<End>, Error> {
        let (mut it, mut room) = (sys::dn_end::default(), [0; LONGEST_NAME]);
        // SAFETY: as in `peer_of`.
        done(unsafe {
            sys::dn_node_end(&mut *self.0, end, &mut it, room.as_mut_ptr(), room.len())
        })?;
        let peer = (it.peer != 0).then(|| room[..it.peer].to_vec());
        Ok(Phase::of(&it).map(|phase| End { phase, peer }))
    }

    /// The end that has been open and not up for the longest: the next to make room. `None` where each open end is up.
    pub fn oldest(&mut self) -> Result<Option<u32>, Error> {
        let mut end = 0;
        // SAFETY: the node was made.
        match done(unsafe { sys::dn_node_oldest(&mut *self.0, &mut end) }) {
            Err(Error::NO_SUCH) => Ok(None),
            other => other.map(|()| Some(end)),
        }
    }

    /// The peer that is up on an end.
    pub fn peer_of(&mut self, end: u32) -> Result<Option<Peer>, Error> {
        // SAFETY: as in `allow`, with a room for the longest name.
        self.peer(|node, peer, room| unsafe {
            sys::dn_node_peer_of(node, end, peer, room.as_mut_ptr(), room.len())
        })
    }

    /// The peers that are up, in the order of their names.
    pub fn peers(&mut self) -> Result<Vec<Peer>, Error> {
        let mut peers: Vec<Peer> = Vec::new();
        // SAFETY: as in `peer_of`; the name is another buffer than the room.
        while let Some(peer) = self.peer(|node, peer, room| unsafe {
            let last = peers.last().map_or(&[][..], |last| &last.name);
            sys::dn_node_next_peer(
                node,
                last.as_ptr(),
                last.len(),
                peer,
                room.as_mut_ptr(),
                room.len(),
            )
        })? {
            peers.push(peer);
        }
        Ok(peers)
    }

    fn peer(
        &mut self,
        call: impl FnOnce(&mut sys::dn_node, &mut sys::dn_peer, &mut [u8]) -> u32,
    ) -> Result<Option<Peer>, Error> {
        let (mut it, mut room) = (sys::dn_peer::default(), [0; LONGEST_NAME]);
        let code = call(&mut self.0, &mut it, &mut room);
        if code == sys::DN_NO_SUCH {
            return Ok(None);
        }
        done(code)?;
        let creation = (it.has_creation != 0).then_some(it.creation);
        Ok(Some(Peer {
            name: room[..it.name].to_vec(),
            end: it.id,
            common: it.common,
            creation,
        }))
    }
}

impl Drop for Node {
    fn drop(&mut self) {
        // SAFETY: as in `allow`; the node was made, and nobody calls it afterwards.
        unsafe { sys::dn_node_free(&mut *self.0) };
    }
}

/// The digest of a challenge under a cookie.
pub fn cookie_digest(cookie: &[u8], challenge: u32) -> Result<[u8; 16], Error> {
    let mut digest = [0; 16];
    // SAFETY: the digest has its 16 bytes, and the cookie as many as is said.
    done(unsafe {
        sys::dn_cookie_digest(
            cookie.as_ptr(),
            cookie.len(),
            challenge,
            digest.as_mut_ptr(),
        )
    })?;
    Ok(digest)
}
