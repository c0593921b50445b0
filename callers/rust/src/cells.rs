// SPDX-License-Identifier: BSD-3-Clause
//! Nodes that each have a handle of their own.

use crate::{all_ready, answer, got_by, raw, Parcel, Portal, Refused, Status, NOWHERE};

/// A node's cell. Calls on different cells, also of one table, may come from different threads at once.
#[repr(transparent)]
pub struct Cell(raw::CellHandle);

// SAFETY: the library proves that its handle may move to another thread. A `Cell` isn't `Sync`, and no call takes it by `&`.
unsafe impl Send for Cell {}

/// The cells of a new table, by node: 1 to 64 nodes, and of at least a link word for each two of them and at most 4096, else `TooMany`.
pub fn cells(nodes: usize, words: u32) -> Result<Vec<Cell>, Refused> {
    cells_by(raw::ipcz_cells_create, nodes, words)
}

/// The cells of a new table whose link words come back, by node: what a program that stays up takes. There is room for `slots` links at once, at
/// least 1 and one for each two nodes, and at most 1,048,576, else `TooMany`. A link's slot is used again once both nodes have let it go, as they
/// take turns; if none is to be had, an open is refused `NoWord` and may be tried again. Numbers of links have 64 bits.
pub fn lasting_cells(nodes: usize, slots: u32) -> Result<Vec<Cell>, Refused> {
    cells_by(raw::ipcz_cells_create_lasting, nodes, slots)
}

fn cells_by(
    create: unsafe extern "C" fn(u32, *mut raw::CellHandle, usize) -> u32,
    nodes: usize,
    links: u32,
) -> Result<Vec<Cell>, Refused> {
    let mut made: Vec<Cell> = (0..nodes).map(|_| Cell(raw::CellHandle::EMPTY)).collect();
    // SAFETY: a `Cell` lies as its handle does, and each was made EMPTY; the pointer of a `Vec` isn't null.
    answer(unsafe { create(links, made.as_mut_ptr().cast(), nodes) })?;
    Ok(made)
}

// SAFETY, of each call below: as for `World`.
/// What [`Cell::retry`] found.
#[derive(Clone, Copy, Debug, PartialEq, Eq)]
pub enum Retry {
    /// No router of the node was told that there is no slot.
    NoneWaits,
    /// One was, and no slot, or no number, is left for it.
    NoSlot,
    /// One was, and asks again at the next turns of the node; others may wait behind it.
    Again,
}

impl Cell {
    /// Opens a pair, whose portals are both the node's at first. It is tried again if another thread came between. `NoWord`, `NumbersEnd`,
    /// `OutOfMemory`.
    pub fn open(&mut self) -> Result<(Portal, Portal), Refused> {
        let (mut first, mut second) = (NOWHERE, NOWHERE);
        loop {
            match answer(unsafe { raw::ipcz_cell_open(&mut self.0, &mut first, &mut second) }) {
                Err(Refused::Raced) => {}
                other => return other.map(|()| (first, second)),
            }
        }
    }

    /// Puts a parcel of at most 65,536 bytes. Refused as [`crate::World::put`] is.
    pub fn put(&mut self, at: Portal, bytes: &[u8], portals: &[Portal]) -> Result<u64, Refused> {
        self.put_by(raw::ipcz_cell_put_wide_parcel, at, bytes, portals)
    }

    /// Puts a parcel of at most 256 bytes, each from 0x20 to 0x7E. Refused as [`crate::World::put_printed`] is.
    pub fn put_printed(
        &mut self,
        at: Portal,
        bytes: &[u8],
        portals: &[Portal],
    ) -> Result<u64, Refused> {
        self.put_by(raw::ipcz_cell_put_parcel, at, bytes, portals)
    }

    fn put_by(
        &mut self,
        put: raw::CellPut,
        at: Portal,
        bytes: &[u8],
        portals: &[Portal],
    ) -> Result<u64, Refused> {
        let mut number = 0;
        answer(unsafe {
            put(
                &mut self.0,
                at,
                bytes.as_ptr(),
                bytes.len(),
                portals.as_ptr(),
                portals.len(),
                &mut number,
            )
        })?;
        Ok(number)
    }

    /// Gets the next parcel that has come to a portal of the node: `Empty` if none has, `PeerClosed` if none will, `Stranger`.
    pub fn get(&mut self, at: Portal) -> Result<Parcel, Refused> {
        got_by(|bytes, portals, size, count, number| unsafe {
            raw::ipcz_cell_get_parcel(
                &mut self.0,
                at,
                bytes.as_mut_ptr(),
                bytes.len(),
                size,
                portals.as_mut_ptr(),
                portals.len(),
                count,
                number,
            )
        })
    }

    /// Tells what gets at a portal of the node would answer, one after the other. Nothing is taken. `Stranger`.
    pub fn look(&mut self, at: Portal) -> Result<Status, Refused> {
        let mut status = Status::default();
        answer(unsafe { raw::ipcz_cell_look(&mut self.0, at, &mut status) })?;
        Ok(status)
    }

    /// Whether a portal of the node has arrived, so that it leaves at most one router in its route if it travels on now. `Stranger`.
    pub fn has_arrived(&mut self, at: Portal) -> Result<bool, Refused> {
        let mut arrived = false;
        answer(unsafe { raw::ipcz_cell_has_arrived(&mut self.0, at, &mut arrived) })?;
        Ok(arrived)
    }

    /// The portals of the node at which a get would give a parcel, or tell that the peer has closed. Nothing is taken.
    pub fn ready(&mut self) -> Vec<Portal> {
        all_ready(|from, at| unsafe { raw::ipcz_cell_next_ready(&mut self.0, from, at) })
    }

    /// Closes a portal of the node. What was put at it still comes to the other one; what comes to it is discarded. `Stranger`, `OutOfMemory`.
    pub fn close(&mut self, at: Portal) -> Result<(), Refused> {
        answer(unsafe { raw::ipcz_cell_close(&mut self.0, at) })
    }

    /// Takes turns of the node until it has no act, or `limit` acts were taken: how many. `Raced`: another thread was there first, call again; so
    /// too `NumbersEnd` and `OutOfMemory`: the acts before it stand.
    pub fn acts(&mut self, limit: u64) -> Result<u64, Refused> {
        let mut touched = 0;
        self.acts_touching(limit, &mut touched)
    }

    /// The same, and adds to `touched` which nodes the acts have touched: bit `n` is set if a message was sent to node `n`, or one of node `n` was taken, so that it
    /// can send its next. Only at these nodes can a turn have become possible. Of acts that end at a refusal it tells what those before have touched.
    pub fn acts_touching(&mut self, limit: u64, touched: &mut u64) -> Result<u64, Refused> {
        let (mut acts, mut nodes) = (0, 0);
        let status =
            unsafe { raw::ipcz_cell_acts_touching(&mut self.0, limit, &mut acts, &mut nodes) };
        *touched |= nodes;
        answer(status)?;
        Ok(acts)
    }

    /// Whether the node has nothing to do, nothing of it waits to be taken by another node, and no message to it was found.
    pub fn quiet(&mut self) -> bool {
        unsafe { raw::ipcz_cell_quiet(&mut self.0) }
    }

    /// Lets a router that was told that there is no slot for its shorter way ask again, if one is to be had now. It doesn't ask again by itself,
    /// and until then parcels go the longer way. In a table of [`lasting_cells`] whose slots are all in use at times, call it now and then, and
    /// take turns of the nodes behind it.
    pub fn retry(&mut self) -> Retry {
        match unsafe { raw::ipcz_cell_retry(&mut self.0) } {
            0 => Retry::NoneWaits,
            1 => Retry::NoSlot,
            _ => Retry::Again,
        }
    }

    /// How many link words of the table were used, when their count was read.
    pub fn claimed(&mut self) -> u64 {
        unsafe { raw::ipcz_cell_claimed(&mut self.0) }
    }

    /// The number of link word `i`, if it was used; as of [`crate::World::word`].
    pub fn word(&mut self, i: u64) -> Option<u64> {
        let mut word = 0;
        unsafe { raw::ipcz_cell_word(&mut self.0, i, &mut word) }.then_some(word)
    }

    /// Whether the node may use a portal now.
    pub fn holds(&mut self, portal: Portal) -> bool {
        unsafe { raw::ipcz_cell_holds(&mut self.0, portal) }
    }

    /// The number of the node.
    pub fn node(&mut self) -> u8 {
        let mut node = 0;
        unsafe { raw::ipcz_cell_node(&mut self.0, &mut node) };
        node
    }
}

impl Drop for Cell {
    fn drop(&mut self) {
        unsafe { raw::ipcz_cell_destroy(&mut self.0) }
    }
}
