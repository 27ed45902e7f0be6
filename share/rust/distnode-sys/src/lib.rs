// SPDX-License-Identifier: Apache-2.0
//! The calls of libdistnode as its header distnode.h has them, which also says what each does, what a caller owes, and which errors
//! there are in which order. The crate `distnode` keeps what a caller owes.

#![no_std]
#![allow(non_camel_case_types)]

use core::ffi::c_void;
use core::mem::size_of;

/// What a call answers.
pub type dn_code = u32;

pub const DN_OK: dn_code = 0;
pub const DN_NOT_A_NODE: dn_code = 1;
pub const DN_IN_USE: dn_code = 2;
pub const DN_NO_MEMORY: dn_code = 3;
pub const DN_NO_ROOM: dn_code = 4;
pub const DN_AWAITS: dn_code = 5;
pub const DN_NO_SUCH: dn_code = 6;
pub const DN_TOO_LONG: dn_code = 8;
pub const DN_PEER_IN_USE: dn_code = 9;
pub const DN_NO_SUCH_END: dn_code = 10;
pub const DN_GONE: dn_code = 11;
pub const DN_WRONG_PHASE: dn_code = 12;
pub const DN_BUSY: dn_code = 13;
pub const DN_SPENT: dn_code = 14;
pub const DN_FULL: dn_code = 15;
pub const DN_OPEN_ENDS: dn_code = 16;
pub const DN_SHOWN_END: dn_code = 17;
pub const DN_NAME_TOO_SHORT: dn_code = 20;
pub const DN_NAME_TOO_LONG: dn_code = 21;
pub const DN_NAME_BAD_BYTE: dn_code = 22;
pub const DN_NAME_BAD_AT: dn_code = 23;
pub const DN_COOKIE_EMPTY: dn_code = 30;
pub const DN_COOKIE_BAD_BYTE: dn_code = 31;
pub const DN_COOKIE_TOO_LONG: dn_code = 32;
pub const DN_EPMD_MALFORMED: dn_code = 40;
pub const DN_EPMD_SHORT: dn_code = 41;
pub const DN_EPMD_TRAILING: dn_code = 42;
pub const DN_HALF_FLAGS: dn_code = 50;

/// Why an end is closed.
pub type dn_why = u32;

pub const DN_WHY_ENDED: dn_why = 1;
pub const DN_WHY_READ_FAILED: dn_why = 2;
pub const DN_WHY_WRITE_FAILED: dn_why = 3;
pub const DN_WHY_GAVE_UP: dn_why = 4;
pub const DN_WHY_DIAL_FAILED: dn_why = 5;
pub const DN_WHY_MALFORMED: dn_why = 6;
pub const DN_WHY_UNEXPECTED: dn_why = 7;
pub const DN_WHY_WRONG_NAME: dn_why = 8;
pub const DN_WHY_WRONG_FLAGS: dn_why = 9;
pub const DN_WHY_WRONG_DIGEST: dn_why = 10;
pub const DN_WHY_STATUS_REFUSED: dn_why = 11;
pub const DN_WHY_REFUSED: dn_why = 12;
pub const DN_WHY_CROSSED: dn_why = 13;
pub const DN_WHY_REPLACED: dn_why = 14;
pub const DN_WHY_NO_MEMORY: dn_why = 15;

/// A status of the handshake, as one side says it and the other hears it.
pub type dn_status = u32;

pub const DN_STATUS_NONE: dn_status = 0;
pub const DN_STATUS_OK: dn_status = 1;
pub const DN_STATUS_OK_SIMULTANEOUS: dn_status = 2;
pub const DN_STATUS_NOK: dn_status = 3;
pub const DN_STATUS_NOT_ALLOWED: dn_status = 4;
pub const DN_STATUS_ALIVE: dn_status = 5;
pub const DN_STATUS_TRUE: dn_status = 6;
pub const DN_STATUS_FALSE: dn_status = 7;

/// How an end stands: what it awaits of the other side, where it is open and not up.
pub type dn_phase = u32;

pub const DN_PHASE_NONE: dn_phase = 0;
pub const DN_PHASE_CLOSED: dn_phase = 1;
pub const DN_PHASE_CONNECTION: dn_phase = 2;
pub const DN_PHASE_NAME: dn_phase = 3;
pub const DN_PHASE_STATUS: dn_phase = 4;
pub const DN_PHASE_CHALLENGE: dn_phase = 5;
pub const DN_PHASE_ACK: dn_phase = 6;
pub const DN_PHASE_TRUE_OR_FALSE: dn_phase = 7;
pub const DN_PHASE_COMPLEMENT: dn_phase = 8;
pub const DN_PHASE_REPLY: dn_phase = 9;
pub const DN_PHASE_DOOMED_DIALING: dn_phase = 10;
pub const DN_PHASE_DOOMED: dn_phase = 11;
pub const DN_PHASE_UP: dn_phase = 12;

/// Which ends hold a peer.
pub type dn_state = u32;

pub const DN_STATE_IDLE: dn_state = 0;
pub const DN_STATE_OUT: dn_state = 1;
pub const DN_STATE_IN: dn_state = 2;
pub const DN_STATE_UP: dn_state = 3;
pub const DN_STATE_CHALLENGED: dn_state = 4;

/// A node, in the caller's memory. All zero before `dn_node_new`; from then on it is neither written nor copied.
#[repr(C)]
pub struct dn_node {
    pub guest: *mut c_void,
    pub mark: u64,
}

/// What a node is set up with. Fields that are 0 have their usual values.
#[repr(C)]
#[derive(Clone, Copy, Debug, Default)]
pub struct dn_setup {
    pub flags: u64,
    pub required: u64,
    pub creation: u32,
    pub version: u32,
    pub limited: u32,
    pub most_ends: u32,
    pub most_steps: u64,
    pub most_entries: u32,
    pub most_open_ends: u32,
    pub mandatory_25: u64,
}

/// The flags that `DFLAG_MANDATORY_25_DIGEST` means, as OTP 25 and later read it.
pub const DN_MANDATORY_25: u64 = 0x1070f94;

/// What a step did.
#[repr(C)]
#[derive(Clone, Copy, Debug, Default)]
pub struct dn_reply {
    pub say: usize,
    pub taken: usize,
    pub common: u64,
    pub id: u32,
    pub closed: u32,
    pub closed_id: u32,
    pub up: u32,
    pub creation: u32,
    pub has_creation: u32,
}

/// A peer that is up.
#[repr(C)]
#[derive(Clone, Copy, Debug, Default)]
pub struct dn_peer {
    pub name: usize,
    pub common: u64,
    pub id: u32,
    pub creation: u32,
    pub has_creation: u32,
}

/// The ends that hold a peer.
#[repr(C)]
#[derive(Clone, Copy, Debug, Default)]
pub struct dn_entry {
    pub state: dn_state,
    pub up: u32,
    pub pending: u32,
}

/// An end.
#[repr(C)]
#[derive(Clone, Copy, Debug, Default)]
pub struct dn_end {
    pub peer: usize,
    pub phase: dn_phase,
    pub why: dn_why,
}

/// What the port mapper knows of a node.
#[repr(C)]
#[derive(Clone, Copy, Debug, Default)]
pub struct dn_info {
    pub port: u16,
    pub highest: u16,
    pub lowest: u16,
    pub node_type: u8,
    pub protocol: u8,
}

/// A registry, in the caller's memory, as a `dn_node`. It stays on one thread.
#[repr(C)]
pub struct dn_registry {
    pub desk: *mut c_void,
    pub mark: u64,
}

/// What became of a request to a registry.
#[repr(C)]
#[derive(Clone, Copy, Debug, Default)]
pub struct dn_served {
    pub taken: usize,
    pub registered: u32,
}

// The sizes that the header asserts.
const _: () = assert!(
    size_of::<dn_node>() == 16 && size_of::<dn_registry>() == 16 && size_of::<dn_served>() == 16
);
const _: () = assert!(size_of::<dn_setup>() == 56 && size_of::<dn_reply>() == 48);
const _: () =
    assert!(size_of::<dn_peer>() == 32 && size_of::<dn_entry>() == 12 && size_of::<dn_end>() == 16);
const _: () = assert!(size_of::<dn_info>() == 8 && size_of::<usize>() == 8);

extern "C" {
    pub fn dn_node_new(
        node: *mut dn_node,
        name: *const u8,
        name_len: usize,
        cookie: *const u8,
        cookie_len: usize,
        setup: *const dn_setup,
    ) -> dn_code;
    pub fn dn_node_renew(node: *mut dn_node) -> dn_code;
    pub fn dn_node_allow(node: *mut dn_node, peer: *const u8, peer_len: usize) -> dn_code;
    pub fn dn_node_disallow(node: *mut dn_node, peer: *const u8, peer_len: usize) -> dn_code;
    pub fn dn_node_cookie(
        node: *mut dn_node,
        peer: *const u8,
        peer_len: usize,
        cookie: *const u8,
        cookie_len: usize,
    ) -> dn_code;
    pub fn dn_node_no_cookie(node: *mut dn_node, peer: *const u8, peer_len: usize) -> dn_code;
    pub fn dn_node_usual_cookie(
        node: *mut dn_node,
        cookie: *const u8,
        cookie_len: usize,
    ) -> dn_code;
    pub fn dn_node_free(node: *mut dn_node) -> dn_code;
    pub fn dn_node_dial(
        node: *mut dn_node,
        peer: *const u8,
        peer_len: usize,
        opening: u32,
        reply: *mut dn_reply,
    ) -> dn_code;
    pub fn dn_node_opened(node: *mut dn_node, id: u32, reply: *mut dn_reply) -> dn_code;
    pub fn dn_node_incoming(node: *mut dn_node, reply: *mut dn_reply) -> dn_code;
    pub fn dn_node_received(
        node: *mut dn_node,
        id: u32,
        bytes: *const u8,
        len: usize,
        challenge: u32,
        reply: *mut dn_reply,
    ) -> dn_code;
    pub fn dn_node_body(
        node: *mut dn_node,
        id: u32,
        body: *const u8,
        len: usize,
        challenge: u32,
        reply: *mut dn_reply,
    ) -> dn_code;
    pub fn dn_node_lost(node: *mut dn_node, id: u32, why: dn_why, reply: *mut dn_reply) -> dn_code;
    pub fn dn_node_tick(node: *mut dn_node, id: u32, reply: *mut dn_reply) -> dn_code;
    pub fn dn_node_forget(node: *mut dn_node, below: u32) -> dn_code;
    pub fn dn_node_say(
        node: *mut dn_node,
        room: *mut u8,
        room_len: usize,
        len: *mut usize,
    ) -> dn_code;
    pub fn dn_node_say_body(
        node: *mut dn_node,
        place: usize,
        room: *mut u8,
        room_len: usize,
        len: *mut usize,
    ) -> dn_code;
    pub fn dn_node_status(
        node: *mut dn_node,
        said: *mut dn_status,
        heard: *mut dn_status,
    ) -> dn_code;
    pub fn dn_node_ready(
        node: *mut dn_node,
        id: u32,
        bytes: *const u8,
        len: usize,
        challenge: u32,
        reply: *mut dn_reply,
    ) -> dn_code;
    pub fn dn_node_guarded_body(
        node: *mut dn_node,
        id: u32,
        body: *const u8,
        len: usize,
        challenge: u32,
        reply: *mut dn_reply,
    ) -> dn_code;
    pub fn dn_node_ready_body(
        node: *mut dn_node,
        id: u32,
        body: *const u8,
        len: usize,
        challenge: u32,
        reply: *mut dn_reply,
    ) -> dn_code;
    pub fn dn_node_entry(
        node: *mut dn_node,
        peer: *const u8,
        peer_len: usize,
        entry: *mut dn_entry,
    ) -> dn_code;
    pub fn dn_node_end(
        node: *mut dn_node,
        id: u32,
        end: *mut dn_end,
        room: *mut u8,
        room_len: usize,
    ) -> dn_code;
    pub fn dn_node_oldest(node: *mut dn_node, id: *mut u32) -> dn_code;
    pub fn dn_node_peer_at(
        node: *mut dn_node,
        place: usize,
        peer: *mut dn_peer,
        room: *mut u8,
        room_len: usize,
    ) -> dn_code;
    pub fn dn_node_peer_of(
        node: *mut dn_node,
        id: u32,
        peer: *mut dn_peer,
        room: *mut u8,
        room_len: usize,
    ) -> dn_code;
    pub fn dn_node_next_peer(
        node: *mut dn_node,
        name: *const u8,
        name_len: usize,
        peer: *mut dn_peer,
        room: *mut u8,
        room_len: usize,
    ) -> dn_code;
    pub fn dn_cookie_digest(
        cookie: *const u8,
        cookie_len: usize,
        challenge: u32,
        digest: *mut u8,
    ) -> dn_code;
    pub fn dn_epmd_alive_request(
        info: *const dn_info,
        name: *const u8,
        name_len: usize,
        room: *mut u8,
        room_len: usize,
        len: *mut usize,
    ) -> dn_code;
    pub fn dn_epmd_port_request(
        name: *const u8,
        name_len: usize,
        room: *mut u8,
        room_len: usize,
        len: *mut usize,
    ) -> dn_code;
    pub fn dn_epmd_names_request(room: *mut u8, room_len: usize, len: *mut usize) -> dn_code;
    pub fn dn_epmd_alive_answer(
        bytes: *const u8,
        len: usize,
        result: *mut u32,
        creation: *mut u32,
    ) -> dn_code;
    pub fn dn_epmd_port_answer(
        bytes: *const u8,
        len: usize,
        result: *mut u32,
        info: *mut dn_info,
    ) -> dn_code;
    pub fn dn_registry_new(registry: *mut dn_registry, port: u16, first: u32) -> dn_code;
    pub fn dn_registry_free(registry: *mut dn_registry) -> dn_code;
    pub fn dn_registry_asked(
        registry: *mut dn_registry,
        connection: u64,
        bytes: *const u8,
        len: usize,
        served: *mut dn_served,
    ) -> dn_code;
    pub fn dn_registry_say(
        registry: *mut dn_registry,
        room: *mut u8,
        room_len: usize,
        len: *mut usize,
    ) -> dn_code;
    pub fn dn_registry_closed(registry: *mut dn_registry, connection: u64) -> dn_code;
    pub fn dn_code_name(code: u32, room: *mut u8, room_len: usize, len: *mut usize) -> dn_code;
    pub fn dn_why_name(why: dn_why, room: *mut u8, room_len: usize, len: *mut usize) -> dn_code;
}
