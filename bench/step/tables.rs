//! Two tables of peers: an ordered tree of names that are shared, as one writes it first, and the fastest that we could write.

use std::collections::btree_map::{BTreeMap, Entry as Found};
use std::hash::{BuildHasher, RandomState};
use std::rc::Rc;

/// Where a peer stands, so that its name is looked up only where one comes from outside.
pub type Slot = u32;

#[derive(Clone, Copy)]
#[allow(dead_code)]
pub enum Entry {
    Out(u32),
    In(u32),
    Up(u32),
}

/// Why there is no new peer.
pub enum NoPeer {
    Known,
    Full,
}

pub trait Table {
    fn new() -> Self;
    /// A new peer, unless one has this name or there are so many.
    fn insert(&mut self, name: &[u8], entry: Entry, most: usize) -> Result<Slot, NoPeer>;
    fn remove(&mut self, slot: Slot);
    fn name(&self, slot: Slot) -> &[u8];
    fn entry(&mut self, slot: Slot) -> &mut Entry;
}

/// Values at places that are used again.
pub struct Slots<T> {
    rows: Vec<Option<T>>,
    free: Vec<Slot>,
}

impl<T> Slots<T> {
    pub fn new() -> Self {
        Slots { rows: Vec::new(), free: Vec::new() }
    }

    pub fn len(&self) -> usize {
        self.rows.len() - self.free.len()
    }

    pub fn put(&mut self, value: T) -> Slot {
        match self.free.pop() {
            Some(slot) => {
                self.rows[slot as usize] = Some(value);
                slot
            }
            None => {
                self.rows.push(Some(value));
                self.rows.len() as Slot - 1
            }
        }
    }

    pub fn take(&mut self, slot: Slot) -> Option<T> {
        let value = self.rows[slot as usize].take();
        self.free.push(slot);
        value
    }

    pub fn get(&self, slot: Slot) -> &T {
        self.rows[slot as usize].as_ref().expect("a slot in use")
    }

    pub fn at(&mut self, slot: Slot) -> &mut T {
        self.rows[slot as usize].as_mut().expect("a slot in use")
    }
}

// ---- the tree

pub struct Tree {
    by_name: BTreeMap<Rc<[u8]>, Slot>,
    peers: Slots<(Rc<[u8]>, Entry)>,
}

impl Table for Tree {
    fn new() -> Self {
        Tree { by_name: BTreeMap::new(), peers: Slots::new() }
    }

    fn insert(&mut self, name: &[u8], entry: Entry, most: usize) -> Result<Slot, NoPeer> {
        let count = self.by_name.len();
        let Found::Vacant(place) = self.by_name.entry(name.into()) else {
            return Err(NoPeer::Known);
        };
        if count >= most {
            return Err(NoPeer::Full);
        }
        let slot = self.peers.put((place.key().clone(), entry));
        Ok(*place.insert(slot))
    }

    fn remove(&mut self, slot: Slot) {
        if let Some((name, _)) = self.peers.take(slot) {
            self.by_name.remove(&name);
        }
    }

    fn name(&self, slot: Slot) -> &[u8] {
        &self.peers.get(slot).0
    }

    fn entry(&mut self, slot: Slot) -> &mut Entry {
        &mut self.peers.at(slot).1
    }
}

// ---- the fastest

/// A name: a short one stands in the value.
enum Name {
    Short(u8, [u8; 62]),
    Long(Box<[u8]>),
}

impl Name {
    fn new(bytes: &[u8]) -> Name {
        if bytes.len() > 62 {
            return Name::Long(bytes.into());
        }
        let mut all = [0; 62];
        all[..bytes.len()].copy_from_slice(bytes);
        Name::Short(bytes.len() as u8, all)
    }

    fn bytes(&self) -> &[u8] {
        match self {
            Name::Short(len, all) => &all[..usize::from(*len)],
            Name::Long(all) => all,
        }
    }
}

struct Named {
    hash: u32,
    entry: Entry,
    name: Name,
}

/// Peers in slots, and slots by the hash of the name, which is keyed, since names are strangers': linear probing, no tombstones.
pub struct Hashed {
    keys: [u64; 2],
    /// The hash above, and below it one more than the slot; zero where there is none.
    rows: Vec<u64>,
    peers: Slots<Named>,
}

fn folded(a: u64, b: u64) -> u64 {
    let all = u128::from(a) * u128::from(b);
    all as u64 ^ (all >> 64) as u64
}

fn row_of(hash: u32, slot: Slot) -> u64 {
    u64::from(hash) << 32 | u64::from(slot + 1)
}

impl Hashed {
    fn hash(&self, name: &[u8]) -> u32 {
        let word = |at: usize| u64::from_le_bytes(name[at..at + 8].try_into().unwrap());
        let mut sum = self.keys[0] ^ name.len() as u64;
        let mut at = 0;
        while at + 16 < name.len() {
            sum = folded(sum ^ word(at), self.keys[1] ^ word(at + 8));
            at += 16;
        }
        let (low, high) = if name.len() >= 16 {
            (word(name.len() - 16), word(name.len() - 8))
        } else if name.len() >= 8 {
            (word(0), word(name.len() - 8))
        } else {
            let mut all = [0u8; 8];
            all[..name.len()].copy_from_slice(name);
            (u64::from_le_bytes(all), 0)
        };
        (folded(sum ^ low, self.keys[1] ^ high) >> 16) as u32
    }

    /// The place that is free for this name, unless a peer has it.
    fn place(&self, hash: u32, name: &[u8]) -> Option<usize> {
        let mask = self.rows.len() - 1;
        let mut at = hash as usize & mask;
        loop {
            let row = self.rows[at];
            if row == 0 {
                return Some(at);
            }
            if (row >> 32) as u32 == hash && self.peers.get(row as u32 - 1).name.bytes() == name {
                return None;
            }
            at = (at + 1) & mask;
        }
    }

    fn grow(&mut self) {
        let size = 2 * self.rows.len();
        let was = std::mem::replace(&mut self.rows, vec![0; size]);
        for row in was.into_iter().filter(|row| *row != 0) {
            let mut at = (row >> 32) as usize & (size - 1);
            while self.rows[at] != 0 {
                at = (at + 1) & (size - 1);
            }
            self.rows[at] = row;
        }
    }
}

impl Table for Hashed {
    fn new() -> Self {
        let keys = [1, 2].map(|number: u64| RandomState::new().hash_one(number));
        Hashed { keys, rows: vec![0; 64], peers: Slots::new() }
    }

    fn insert(&mut self, name: &[u8], entry: Entry, most: usize) -> Result<Slot, NoPeer> {
        if 2 * self.peers.len() >= self.rows.len() {
            self.grow();
        }
        let hash = self.hash(name);
        let Some(place) = self.place(hash, name) else {
            return Err(NoPeer::Known);
        };
        if self.peers.len() >= most {
            return Err(NoPeer::Full);
        }
        let slot = self.peers.put(Named { hash, entry, name: Name::new(name) });
        self.rows[place] = row_of(hash, slot);
        Ok(slot)
    }

    fn remove(&mut self, slot: Slot) {
        let Some(peer) = self.peers.take(slot) else {
            return;
        };
        let mask = self.rows.len() - 1;
        let row = row_of(peer.hash, slot);
        let mut at = peer.hash as usize & mask;
        while self.rows[at] != row {
            at = (at + 1) & mask;
        }
        // What stands behind moves up, unless it would then stand before its own place.
        let mut next = (at + 1) & mask;
        while self.rows[next] != 0 {
            let home = (self.rows[next] >> 32) as usize & mask;
            if next.wrapping_sub(home) & mask >= next.wrapping_sub(at) & mask {
                self.rows[at] = self.rows[next];
                at = next;
            }
            next = (next + 1) & mask;
        }
        self.rows[at] = 0;
    }

    fn name(&self, slot: Slot) -> &[u8] {
        self.peers.get(slot).name.bytes()
    }

    fn entry(&mut self, slot: Slot) -> &mut Entry {
        &mut self.peers.at(slot).entry
    }
}
