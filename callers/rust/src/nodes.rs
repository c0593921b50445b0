// SPDX-License-Identifier: BSD-3-Clause
//! Nodes that threads share, and portals that sleep until a parcel comes.
//!
//! ```
//! use ipcz_portals::nodes::Loop;
//!
//! let nodes = Loop::new(2)?;
//! let portal = nodes.node(1).first(0);
//! let other = std::thread::spawn(move || portal.recv().map(|parcel| parcel.bytes));
//! nodes.node(0).first(1).send(b"hello")?;
//! assert_eq!(other.join().unwrap()?, b"hello");
//! # Ok::<(), ipcz_portals::Refused>(())
//! ```
//!
//! A [`Loop`] is a table of nodes whose link words come back ([`crate::lasting_cells`]), with a lock for each node. Any thread may call any node and portal
//! at any time. No thread has to serve a node: who sends takes the turns that bring the parcel to its portal, those of the other nodes too, and hands it to
//! the thread that waits there. So a parcel wakes one thread, and nothing runs between calls.
//!
//! The archive below is proved; this module isn't. It is safe Rust, and tested.
use crate::table::{after, Answer, Table, Until};
use crate::{first_portal, Portal as Name, Refused, Status};
use std::fmt;
use std::future::Future;
use std::pin::Pin;
use std::sync::Arc;
use std::task::{Context, Poll};
use std::time::Duration;

/// For how many links at once there is room in a loop that [`Loop::new`] makes.
pub const SLOTS: u32 = 4096;

/// A loop of nodes. It stops when it is dropped.
pub struct Loop {
    table: Arc<Table>,
}

/// A node of a loop.
#[derive(Clone)]
pub struct Node {
    table: Arc<Table>,
    number: u8,
}

/// A portal of a node. It is closed when it is dropped, unless it is one of those from the start ([`Node::first`]).
pub struct Portal {
    node: Node,
    name: Name,
    is_closed_at_end: bool,
}

/// A parcel that was received.
#[derive(Debug)]
pub struct Parcel {
    /// How many parcels were received at this portal before it.
    pub number: u64,
    /// Its bytes.
    pub bytes: Vec<u8>,
    /// The portals that came with it.
    pub portals: Vec<Portal>,
}

/// What wasn't sent: why, and the portals that were to go with it.
#[derive(Debug)]
pub struct Unsent {
    /// Why the send was refused.
    pub why: Refused,
    /// The portals, which are as they were.
    pub portals: Vec<Portal>,
}

impl fmt::Display for Unsent {
    fn fmt(&self, f: &mut fmt::Formatter<'_>) -> fmt::Result {
        self.why.fmt(f)
    }
}

impl std::error::Error for Unsent {}

/// The portals are dropped.
impl From<Unsent> for Refused {
    fn from(unsent: Unsent) -> Refused {
        unsent.why
    }
}

impl Loop {
    /// A loop of 1 to 64 nodes, with room for [`SLOTS`] links at once. `TooMany`, `OutOfMemory`.
    pub fn new(nodes: u8) -> Result<Loop, Refused> {
        Loop::with_slots(nodes, SLOTS)
    }

    /// The same with room for so many links, as for [`crate::lasting_cells`].
    pub fn with_slots(nodes: u8, slots: u32) -> Result<Loop, Refused> {
        let table = Arc::new(Table::new(nodes, slots)?);
        Ok(Loop { table })
    }

    /// A node by its number.
    ///
    /// # Panics
    ///
    /// If there is no such node.
    pub fn node(&self, number: u8) -> Node {
        assert!(number < self.table.nodes(), "there is no node {number}");
        Node {
            table: Arc::clone(&self.table),
            number,
        }
    }

    /// Ends all waiting, now and later: what waits is refused `Stopped`. What has come can still be received, and what is sent is sent.
    pub fn stop(&self) {
        self.table.stop();
    }
}

impl Drop for Loop {
    fn drop(&mut self) {
        self.stop();
    }
}

impl Node {
    /// The node's number.
    pub fn number(&self) -> u8 {
        self.number
    }

    /// The portal that the node has from the start of the pair that it shares with another. It isn't closed when it is dropped, so it can be had again.
    ///
    /// # Panics
    ///
    /// If there is no such node, or it is this one.
    pub fn first(&self, other: u8) -> Portal {
        let nodes = self.table.nodes();
        assert!(
            other < nodes && other != self.number,
            "node {} has no pair with {other}",
            self.number
        );
        self.portal(first_portal(self.number, other, nodes), false)
    }

    /// Opens a pair, both portals of which are this node's. `NoWord` if no slot is free at the moment, `NumbersEnd`, `OutOfMemory`.
    pub fn open(&self) -> Result<(Portal, Portal), Refused> {
        let (first, second) = self.table.call(self.number, |cell| cell.open())?;
        Ok((self.portal(first, true), self.portal(second, true)))
    }

    /// Receives at the first of some portals of this node at which there is something: tells its place in the list, and the parcel, or why none comes there
    /// any more. It waits as [`Portal::recv`] does, or no longer than is said: then `Empty`. `Stopped`; `Stranger` if there is no portal in the list, or one
    /// of another node.
    pub fn recv_any(
        &self,
        portals: &[&Portal],
        timeout: Option<Duration>,
    ) -> Result<(usize, Result<Parcel, Refused>), Refused> {
        if portals.is_empty() || portals.iter().any(|it| !it.node.is(self)) {
            return Err(Refused::Stranger);
        }
        let names: Vec<Name> = portals.iter().map(|it| it.name).collect();
        let until = timeout.map_or(Until::Forever, after);
        self.received(self.table.receive(self.number, &names, until))
    }

    fn is(&self, other: &Node) -> bool {
        Arc::ptr_eq(&self.table, &other.table) && self.number == other.number
    }

    fn portal(&self, name: Name, is_closed_at_end: bool) -> Portal {
        Portal {
            node: self.clone(),
            name,
            is_closed_at_end,
        }
    }

    fn received(&self, answer: Answer) -> Result<(usize, Result<Parcel, Refused>), Refused> {
        let own = |parcel: crate::Parcel| Parcel {
            number: parcel.number,
            bytes: parcel.bytes,
            portals: parcel
                .portals
                .iter()
                .map(|it| self.portal(*it, true))
                .collect(),
        };
        answer.map(|(place, parcel)| (place, parcel.map(own)))
    }
}

impl Portal {
    /// Sends a parcel of at most 65,536 bytes. It doesn't wait for a receiver, and nothing limits how many parcels wait for one. `PeerClosed`, `TooMany`,
    /// `Stranger`, `NumbersEnd`, `OutOfMemory`: nothing is sent.
    pub fn send(&self, bytes: &[u8]) -> Result<(), Refused> {
        Ok(self.send_with(bytes, [])?)
    }

    /// The same with at most 8 portals of this node, which are the receiver's then. Also `SelfAttach`, `PeerAttach`; the portals of a refused send come back.
    ///
    /// Portals that are sent to meet each other may travel for ever (`ipcz_portals.h`, "CIRCLES").
    pub fn send_with(&self, bytes: &[u8], portals: impl Into<Vec<Portal>>) -> Result<(), Unsent> {
        let mut portals = portals.into();
        let names: Vec<Name> = portals.iter().map(|it| it.name).collect();
        let sent = if portals.iter().all(|it| it.node.is(&self.node)) {
            let node = self.node.number;
            let put = |cell: &mut crate::Cell| cell.put(self.name, bytes, &names);
            self.node.table.call(node, put)
        } else {
            Err(Refused::Stranger)
        };
        match sent {
            Ok(_number) => {
                for portal in &mut portals {
                    portal.is_closed_at_end = false;
                }
                Ok(())
            }
            Err(why) => Err(Unsent { why, portals }),
        }
    }

    /// Receives the next parcel, and sleeps until there is one. `PeerClosed`: none will come; `Stopped`: none has come, and the loop was stopped; `Stranger`:
    /// the portal isn't the node's any more. `NumbersEnd`, `OutOfMemory`: a turn was refused; call again.
    pub fn recv(&self) -> Result<Parcel, Refused> {
        self.recv_until(Until::Forever)
    }

    /// The same, but it sleeps no longer than is said: then `Empty`.
    pub fn recv_timeout(&self, timeout: Duration) -> Result<Parcel, Refused> {
        self.recv_until(after(timeout))
    }

    /// The same without sleeping: `Empty` if nothing has come.
    pub fn try_recv(&self) -> Result<Parcel, Refused> {
        self.recv_until(Until::Now)
    }

    /// Tells what [`Portal::try_recv`] would give, one call after the other. Nothing is taken, and another thread may take it before this one does. `Stranger`.
    pub fn look(&self) -> Result<Status, Refused> {
        let table = &self.node.table;
        table.look_at(self.node.number, |cell| cell.look(self.name))
    }

    /// Whether the portal has arrived, so that it leaves at most one router in its route if it travels on now. `Stranger`.
    pub fn has_arrived(&self) -> Result<bool, Refused> {
        let table = &self.node.table;
        table.look_at(self.node.number, |cell| cell.has_arrived(self.name))
    }

    /// The same for a task, which is woken when the node has moved. It may be dropped at any time, and no parcel is lost.
    pub fn recv_async(&self) -> Recv<'_> {
        Recv { portal: self }
    }

    /// The parcels that come, one after the other, until a [`Portal::recv`] is refused.
    pub fn iter(&self) -> impl Iterator<Item = Parcel> + '_ {
        std::iter::from_fn(|| self.recv().ok())
    }

    /// Closes the portal, as a drop does, but also one of those from the start. `Stranger`, `OutOfMemory`.
    pub fn close(mut self) -> Result<(), Refused> {
        self.is_closed_at_end = false;
        self.close_now()
    }

    /// Its name, which is also that of the portal at other nodes.
    pub fn name(&self) -> Name {
        self.name
    }

    fn close_now(&self) -> Result<(), Refused> {
        let table = &self.node.table;
        table.call(self.node.number, |cell| cell.close(self.name))
    }

    fn recv_until(&self, until: Until) -> Result<Parcel, Refused> {
        let node = &self.node;
        let answer = node.table.receive(node.number, &[self.name], until);
        node.received(answer)?.1
    }
}

impl Drop for Portal {
    fn drop(&mut self) {
        if self.is_closed_at_end {
            // (without memory it stays open)
            let _ = self.close_now();
        }
    }
}

impl fmt::Debug for Portal {
    fn fmt(&self, f: &mut fmt::Formatter<'_>) -> fmt::Result {
        let side = if self.name.side_b { 'B' } else { 'A' };
        write!(
            f,
            "Portal({} {side} at node {})",
            self.name.pair, self.node.number
        )
    }
}

/// What [`Portal::recv_async`] gives.
#[must_use = "a future does nothing unless it is awaited"]
pub struct Recv<'a> {
    portal: &'a Portal,
}

impl Future for Recv<'_> {
    type Output = Result<Parcel, Refused>;

    fn poll(self: Pin<&mut Self>, context: &mut Context<'_>) -> Poll<Self::Output> {
        match self.portal.recv_until(Until::Woken(context.waker())) {
            Err(Refused::Empty) => Poll::Pending,
            answer => Poll::Ready(answer),
        }
    }
}
