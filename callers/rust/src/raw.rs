// SPDX-License-Identifier: BSD-3-Clause
//! The calls as `ipcz_portals.h` declares them.

/// A portal: an end of a pair, of side A or B. It is a name; which node may use it is kept by the nodes.
#[repr(C)]
#[derive(Clone, Copy, Debug, PartialEq, Eq, Hash)]
pub struct Portal {
    /// The pair's number, which no other pair of the world ever has; where link words don't come back it is below their number.
    pub pair: u64,
    /// Whether it is the pair's portal of side B.
    pub side_b: bool,
}

/// What a look at a portal tells: what gets there would answer, one after the other.
#[repr(C)]
#[derive(Clone, Copy, Debug, Default, PartialEq, Eq)]
pub struct Status {
    /// The number that the next parcel has, whether it has come or not.
    pub next: u64,
    /// How many gets would give a parcel each. A parcel before which another one lacks isn't counted.
    pub waiting: u64,
    /// How many bytes the next parcel has; 0 if none waits.
    pub size: usize,
    /// How many portals it has; 0 if none waits.
    pub count: usize,
    /// Whether the get after these would be refused `PeerClosed`; if not, it would be refused `Empty`.
    pub peer_closed: bool,
}

#[repr(C)]
pub struct Handle {
    at: *mut u8,
    has_world: bool,
}

impl Handle {
    pub const EMPTY: Handle = Handle {
        at: std::ptr::null_mut(),
        has_world: false,
    };
}

#[repr(C)]
pub struct CellHandle {
    at: *mut u8,
    has_cell: bool,
}

impl CellHandle {
    pub const EMPTY: CellHandle = CellHandle {
        at: std::ptr::null_mut(),
        has_cell: false,
    };
}

/// A put of a parcel: `ipcz_put_parcel` or `ipcz_put_wide_parcel`.
pub type Put = unsafe extern "C" fn(
    world: *mut Handle,
    node: u8,
    at: Portal,
    bytes: *const u8,
    size: usize,
    portals: *const Portal,
    count: usize,
    number: *mut u64,
) -> u32;

/// A put of a parcel by a cell: `ipcz_cell_put_parcel` or `ipcz_cell_put_wide_parcel`.
pub type CellPut = unsafe extern "C" fn(
    cell: *mut CellHandle,
    at: Portal,
    bytes: *const u8,
    size: usize,
    portals: *const Portal,
    count: usize,
    number: *mut u64,
) -> u32;

unsafe extern "C" {
    pub fn ipcz_create(nodes: u8, words: u32, world: *mut Handle) -> u32;
    pub fn ipcz_destroy(world: *mut Handle);
    pub fn ipcz_open(world: *mut Handle, node: u8, first: *mut Portal, second: *mut Portal) -> u32;
    pub fn ipcz_put_parcel(
        world: *mut Handle,
        node: u8,
        at: Portal,
        bytes: *const u8,
        size: usize,
        portals: *const Portal,
        count: usize,
        number: *mut u64,
    ) -> u32;
    pub fn ipcz_put_wide_parcel(
        world: *mut Handle,
        node: u8,
        at: Portal,
        bytes: *const u8,
        size: usize,
        portals: *const Portal,
        count: usize,
        number: *mut u64,
    ) -> u32;
    pub fn ipcz_get_parcel(
        world: *mut Handle,
        node: u8,
        at: Portal,
        bytes: *mut u8,
        room: usize,
        size: *mut usize,
        portals: *mut Portal,
        portal_room: usize,
        count: *mut usize,
        number: *mut u64,
    ) -> u32;
    pub fn ipcz_look(world: *mut Handle, node: u8, at: Portal, status: *mut Status) -> u32;
    pub fn ipcz_has_arrived(world: *mut Handle, node: u8, at: Portal, arrived: *mut bool) -> u32;
    pub fn ipcz_next_ready(world: *mut Handle, node: u8, from: *mut u64, at: *mut Portal) -> u32;
    pub fn ipcz_close(world: *mut Handle, node: u8, at: Portal) -> u32;
    pub fn ipcz_act(world: *mut Handle, node: u8, acted: *mut bool) -> u32;
    pub fn ipcz_settle_counting(
        world: *mut Handle,
        limit: u64,
        acts: *mut u64,
        quiet: *mut bool,
    ) -> u32;
    pub fn ipcz_claimed(world: *mut Handle) -> u64;
    pub fn ipcz_words_left(world: *mut Handle) -> u64;
    pub fn ipcz_add_words(world: *mut Handle, count: u64) -> u32;
    pub fn ipcz_retry(world: *mut Handle) -> u64;
    pub fn ipcz_word(world: *mut Handle, i: u64, word: *mut u64) -> bool;
    pub fn ipcz_holder(world: *mut Handle, portal: Portal, node: *mut u8) -> bool;

    pub fn ipcz_cells_create(words: u32, cells: *mut CellHandle, nodes: usize) -> u32;
    pub fn ipcz_cells_create_lasting(slots: u32, cells: *mut CellHandle, nodes: usize) -> u32;
    pub fn ipcz_cell_destroy(cell: *mut CellHandle);
    pub fn ipcz_cell_open(cell: *mut CellHandle, first: *mut Portal, second: *mut Portal) -> u32;
    pub fn ipcz_cell_put_parcel(
        cell: *mut CellHandle,
        at: Portal,
        bytes: *const u8,
        size: usize,
        portals: *const Portal,
        count: usize,
        number: *mut u64,
    ) -> u32;
    pub fn ipcz_cell_put_wide_parcel(
        cell: *mut CellHandle,
        at: Portal,
        bytes: *const u8,
        size: usize,
        portals: *const Portal,
        count: usize,
        number: *mut u64,
    ) -> u32;
    pub fn ipcz_cell_get_parcel(
        cell: *mut CellHandle,
        at: Portal,
        bytes: *mut u8,
        room: usize,
        size: *mut usize,
        portals: *mut Portal,
        portal_room: usize,
        count: *mut usize,
        number: *mut u64,
    ) -> u32;
    pub fn ipcz_cell_look(cell: *mut CellHandle, at: Portal, status: *mut Status) -> u32;
    pub fn ipcz_cell_has_arrived(cell: *mut CellHandle, at: Portal, arrived: *mut bool) -> u32;
    pub fn ipcz_cell_next_ready(cell: *mut CellHandle, from: *mut u64, at: *mut Portal) -> u32;
    pub fn ipcz_cell_close(cell: *mut CellHandle, at: Portal) -> u32;
    pub fn ipcz_cell_acts_touching(
        cell: *mut CellHandle,
        limit: u64,
        acts: *mut u64,
        touched: *mut u64,
    ) -> u32;
    pub fn ipcz_cell_quiet(cell: *mut CellHandle) -> bool;
    pub fn ipcz_cell_retry(cell: *mut CellHandle) -> u32;
    pub fn ipcz_cell_claimed(cell: *mut CellHandle) -> u64;
    pub fn ipcz_cell_word(cell: *mut CellHandle, i: u64, word: *mut u64) -> bool;
    pub fn ipcz_cell_holds(cell: *mut CellHandle, portal: Portal) -> bool;
    pub fn ipcz_cell_node(cell: *mut CellHandle, node: *mut u8) -> bool;
}
