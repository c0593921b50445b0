// SPDX-License-Identifier: BSD-3-Clause
//! Safe Rust over the static library `ipcz_portals`: nodes that exchange parcels through portals, all of them in a `World`, or each in a
//! `Cell` of its own, which a thread that owns it calls without a lock.
//!
//! What the library asks of its callers (`ipcz_portals.h`, "What the caller upholds") is kept here by types: a `World` or a `Cell` has a
//! handle that no other one has, each call takes `&mut self`, references aren't null, and slices have their lengths.
//!
//! A portal of one world is a name in another one, too, and means a portal there: which world it came from is the program's to know.
#![warn(missing_docs)]

mod cells;
#[forbid(unsafe_code)]
pub mod nodes;
mod raw;
#[forbid(unsafe_code)]
mod table;
pub mod typed;

use std::fmt;

pub use cells::{cells, lasting_cells, Cell, Retry};
pub use raw::{Portal, Status};

const MAX_PRINTED_BYTES: usize = 256;
const TOO_SMALL: u32 = 100;
const MAX_PORTALS: usize = 8;
const NOWHERE: Portal = Portal {
    pair: 0,
    side_b: false,
};

/// Why a call was refused. A refused call changes nothing.
#[derive(Clone, Copy, Debug, PartialEq, Eq)]
#[non_exhaustive]
pub enum Refused {
    /// No memory was found.
    OutOfMemory,
    /// No parcel has come yet.
    Empty,
    /// The other portal of the pair is closed, and what was put at it before is got.
    PeerClosed,
    /// Each link word is used, so no pair can be opened.
    NoWord,
    /// A portal can't travel through itself.
    SelfAttach,
    /// Nor to the other portal of its pair.
    PeerAttach,
    /// There is no such node, or the portal isn't this node's, or is named twice.
    Stranger,
    /// No number of 64 bits is left for a parcel or a router.
    NumbersEnd,
    /// A byte isn't from 0x20 to 0x7E. Only puts of printed parcels answer it.
    BadData,
    /// Too many bytes, portals, nodes or words, or too few.
    TooMany,
    /// Another node's thread was there first: call again. Only [`Cell::acts`] answers it.
    Raced,
    /// The loop was stopped. Only calls of [`nodes`] answer it.
    Stopped,
    /// A status that these calls don't answer.
    Other(u32),
}

impl Refused {
    fn of(status: u32) -> Refused {
        match status {
            1 => Refused::OutOfMemory,
            2 => Refused::Empty,
            3 => Refused::PeerClosed,
            4 => Refused::NoWord,
            5 => Refused::SelfAttach,
            6 => Refused::PeerAttach,
            7 => Refused::Stranger,
            8 => Refused::NumbersEnd,
            9 => Refused::BadData,
            10 => Refused::TooMany,
            11 => Refused::Raced,
            other => Refused::Other(other),
        }
    }
}

impl fmt::Display for Refused {
    fn fmt(&self, f: &mut fmt::Formatter<'_>) -> fmt::Result {
        fmt::Debug::fmt(self, f)
    }
}

impl std::error::Error for Refused {}

/// A parcel that was got.
#[derive(Clone, Debug, PartialEq, Eq)]
pub struct Parcel {
    /// How many parcels were got at this portal before it.
    pub number: u64,
    /// Its bytes.
    pub bytes: Vec<u8>,
    /// The portals that came with it, which are the node's now.
    pub portals: Vec<Portal>,
}

/// What a settle came to.
#[derive(Clone, Copy, Debug, PartialEq, Eq)]
pub struct Settled {
    /// How many acts were taken.
    pub acts: u64,
    /// Whether no node has an act any more: then all that was put has come to where it can be got.
    pub quiet: bool,
}

fn answer(status: u32) -> Result<(), Refused> {
    if status == 0 {
        Ok(())
    } else {
        Err(Refused::of(status))
    }
}

// Each portal that such calls tell, one after the other.
fn all_ready(mut next: impl FnMut(&mut u64, &mut Portal) -> u32) -> Vec<Portal> {
    let (mut all, mut from, mut at) = (Vec::new(), 0, NOWHERE);
    while next(&mut from, &mut at) == 0 {
        all.push(at);
    }
    all
}

/// The portal that a node has from the start of the pair that it shares with another; both are below `nodes`, and not the same.
pub fn first_portal(node: u8, other: u8, nodes: u8) -> Portal {
    let (low, high) = (u64::from(node.min(other)), u64::from(node.max(other)));
    Portal {
        pair: low * (2 * u64::from(nodes) - low - 1) / 2 + (high - low - 1),
        side_b: node > other,
    }
}

/// The parcel that a call gets, which is given the room that it wants.
fn got_by(
    mut call: impl FnMut(&mut [u8], &mut [Portal], &mut usize, &mut usize, &mut u64) -> u32,
) -> Result<Parcel, Refused> {
    let mut bytes = vec![0; MAX_PRINTED_BYTES];
    let (mut portals, mut size, mut count, mut number) = ([NOWHERE; MAX_PORTALS], 0, 0, 0);
    loop {
        let status = call(&mut bytes, &mut portals, &mut size, &mut count, &mut number);
        if status != TOO_SMALL {
            answer(status)?;
            break;
        }
        bytes.resize(size, 0);
    }
    bytes.truncate(size);
    Ok(Parcel {
        number,
        bytes,
        portals: portals[..count].to_vec(),
    })
}

/// A world of nodes.
pub struct World(raw::Handle);

// SAFETY: the library proves that its handle may move to another thread. A `World` isn't `Sync`, and no call takes it by `&`.
unsafe impl Send for World {}

// SAFETY, of each call below: the handle was made EMPTY and is written only by the library, no other reference to it exists beside
// `&mut self`, and what else is pointed to lives through the call, lies apart, and isn't null.
impl World {
    /// A world of 1 to 64 nodes, and of at least a link word for each two of them and at most 4096, else `TooMany`. [`World::add_words`] makes more.
    pub fn new(nodes: u8, words: u32) -> Result<World, Refused> {
        let mut world = World(raw::Handle::EMPTY);
        answer(unsafe { raw::ipcz_create(nodes, words, &mut world.0) })?;
        Ok(world)
    }

    /// Opens a pair, whose portals are both the node's at first: `Stranger` for a node that isn't there, `NoWord`, `NumbersEnd`, `OutOfMemory`.
    pub fn open(&mut self, node: u8) -> Result<(Portal, Portal), Refused> {
        let (mut first, mut second) = (NOWHERE, NOWHERE);
        answer(unsafe { raw::ipcz_open(&mut self.0, node, &mut first, &mut second) })?;
        Ok((first, second))
    }

    /// Puts a parcel of at most 65,536 bytes, with at most 8 portals of the node, and answers how many were put at the portal before it.
    /// `OutOfMemory`, `Stranger`, `TooMany`, `SelfAttach`, `PeerAttach`, `PeerClosed` once the news has come, `NumbersEnd`.
    ///
    /// Portals that are sent to meet each other may travel for ever (`ipcz_portals.h`, "CIRCLES").
    pub fn put(
        &mut self,
        node: u8,
        at: Portal,
        bytes: &[u8],
        portals: &[Portal],
    ) -> Result<u64, Refused> {
        self.put_by(raw::ipcz_put_wide_parcel, node, at, bytes, portals)
    }

    /// Puts a parcel of at most 256 bytes, each from 0x20 to 0x7E. Refused as [`World::put`] is, and `BadData`.
    pub fn put_printed(
        &mut self,
        node: u8,
        at: Portal,
        bytes: &[u8],
        portals: &[Portal],
    ) -> Result<u64, Refused> {
        self.put_by(raw::ipcz_put_parcel, node, at, bytes, portals)
    }

    fn put_by(
        &mut self,
        put: raw::Put,
        node: u8,
        at: Portal,
        bytes: &[u8],
        portals: &[Portal],
    ) -> Result<u64, Refused> {
        let mut number = 0;
        answer(unsafe {
            put(
                &mut self.0,
                node,
                at,
                bytes.as_ptr(),
                bytes.len(),
                portals.as_ptr(),
                portals.len(),
                &mut number,
            )
        })?;
        Ok(number)
    }

    /// Gets the next parcel that has come to a portal of the node: `Empty` if none has, `PeerClosed` if none will, `Stranger`.
    pub fn get(&mut self, node: u8, at: Portal) -> Result<Parcel, Refused> {
        got_by(|bytes, portals, size, count, number| unsafe {
            raw::ipcz_get_parcel(
                &mut self.0,
                node,
                at,
                bytes.as_mut_ptr(),
                bytes.len(),
                size,
                portals.as_mut_ptr(),
                portals.len(),
                count,
                number,
            )
        })
    }

    /// Tells what gets at a portal of the node would answer, one after the other. Nothing is taken. `Stranger`.
    pub fn look(&mut self, node: u8, at: Portal) -> Result<Status, Refused> {
        let mut status = Status::default();
        answer(unsafe { raw::ipcz_look(&mut self.0, node, at, &mut status) })?;
        Ok(status)
    }

    /// Whether a portal of the node has arrived, so that it leaves at most one router in its route if it travels on now. `Stranger`.
    pub fn has_arrived(&mut self, node: u8, at: Portal) -> Result<bool, Refused> {
        let mut arrived = false;
        answer(unsafe { raw::ipcz_has_arrived(&mut self.0, node, at, &mut arrived) })?;
        Ok(arrived)
    }

    /// The portals of a node at which a get would give a parcel, or tell that the peer has closed. Nothing is taken.
    pub fn ready(&mut self, node: u8) -> Vec<Portal> {
        all_ready(|from, at| unsafe { raw::ipcz_next_ready(&mut self.0, node, from, at) })
    }

    /// Closes a portal of the node. What was put at it still comes to the other one; what comes to it is discarded. `Stranger`, `OutOfMemory`.
    pub fn close(&mut self, node: u8, at: Portal) -> Result<(), Refused> {
        answer(unsafe { raw::ipcz_close(&mut self.0, node, at) })
    }

    /// Takes the node's first act that is possible, and tells whether it had one. `Stranger`, `NumbersEnd`, `OutOfMemory`.
    pub fn turn(&mut self, node: u8) -> Result<bool, Refused> {
        let mut acted = false;
        answer(unsafe { raw::ipcz_act(&mut self.0, node, &mut acted) })?;
        Ok(acted)
    }

    /// Has the nodes take turns until none has an act, or `limit` acts were taken. With a limit of 0 it only looks. `NumbersEnd`, `OutOfMemory`: the
    /// turns before it stand.
    pub fn settle(&mut self, limit: u64) -> Result<Settled, Refused> {
        let (mut acts, mut quiet) = (0, false);
        answer(unsafe { raw::ipcz_settle_counting(&mut self.0, limit, &mut acts, &mut quiet) })?;
        Ok(Settled { acts, quiet })
    }

    /// How many link words were used.
    pub fn claimed(&mut self) -> u64 {
        unsafe { raw::ipcz_claimed(&mut self.0) }
    }

    /// How many link words are left. If it is 0, an open is refused `NoWord`.
    pub fn words_left(&mut self) -> u64 {
        unsafe { raw::ipcz_words_left(&mut self.0) }
    }

    /// Makes so many link words more, of 8 bytes each, which are kept as long as the world: what a world that lasts is given before they are used
    /// up, as by `if world.words_left() < 64 { world.add_words(1000)?; }` before each open. `OutOfMemory`: there are as many as before. To add
    /// none is never refused.
    pub fn add_words(&mut self, count: u64) -> Result<(), Refused> {
        answer(unsafe { raw::ipcz_add_words(&mut self.0, count) })
    }

    /// Lets each node that found no link word when a portal had moved on ask for one again, and tells how many there were. A node asks once by
    /// itself, and then stays in the portal's way; so call it behind [`World::add_words`], and then settle. If it tells 0, nothing has changed.
    pub fn retry(&mut self) -> u64 {
        unsafe { raw::ipcz_retry(&mut self.0) }
    }

    /// The number of link word `i`, if it was used; docs/PROTOCOL.md, "Link words", reads it.
    pub fn word(&mut self, i: u64) -> Option<u64> {
        let mut word = 0;
        unsafe { raw::ipcz_word(&mut self.0, i, &mut word) }.then_some(word)
    }

    /// The node that may use a portal now. While it travels, and once it is closed, none may.
    pub fn holder_of(&mut self, portal: Portal) -> Option<u8> {
        let mut node = 0;
        unsafe { raw::ipcz_holder(&mut self.0, portal, &mut node) }.then_some(node)
    }
}

impl Drop for World {
    fn drop(&mut self) {
        unsafe { raw::ipcz_destroy(&mut self.0) }
    }
}
