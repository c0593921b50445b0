// SPDX-License-Identifier: BSD-3-Clause
//! Channels of values: what is sent at a [`Sender`] is received at its [`Receiver`], in order, also while one of them travels to another node.
//!
//! ```
//! use ipcz_portals::nodes::Loop;
//! use ipcz_portals::typed::{channel, Receiver, Sender};
//!
//! // A request carries the channel for its answer.
//! let nodes = Loop::new(2)?;
//! let (asks, served): (Sender<(u32, Sender<u64>)>, Receiver<_>) = channel(&nodes.node(0))?;
//! let server = std::thread::spawn(move || {
//!     for (number, answers) in served.iter() {
//!         answers.send(u64::from(number) * 2).unwrap();
//!     }
//! });
//! let (answers, answered) = channel(&nodes.node(0))?;
//! asks.send((21, answers)).unwrap();
//! assert_eq!(answered.recv().unwrap(), 42);
//! drop(asks);
//! server.join().unwrap();
//! # Ok::<(), ipcz_portals::Refused>(())
//! ```
//!
//! A value is what [`Encode`] and [`Decode`] make bytes and portals of: numbers (little endian), `bool`, `String`, lists, options and tuples, portals, and
//! the two ends of channels. Nothing here is proved; it is tested.
use crate::nodes::{Node, Parcel, Portal, Unsent};
use crate::Refused;
use std::fmt;
use std::marker::PhantomData;
use std::time::Duration;

/// What a value becomes before it is sent: bytes, and the portals that go with it.
#[derive(Debug, Default)]
pub struct Draft {
    /// The bytes, to whose end a value adds its own.
    pub bytes: Vec<u8>,
    /// The portals, in the order in which they are read.
    pub portals: Vec<Portal>,
}

/// What is left to read of a parcel.
pub struct Rest<'a> {
    bytes: &'a [u8],
    portals: std::vec::IntoIter<Portal>,
}

impl<'a> Rest<'a> {
    /// Takes so many bytes; none if there are fewer.
    pub fn bytes(&mut self, count: usize) -> Option<&'a [u8]> {
        let (taken, rest) = self.bytes.split_at_checked(count)?;
        self.bytes = rest;
        Some(taken)
    }

    /// Takes the next portal, if there is one.
    pub fn portal(&mut self) -> Option<Portal> {
        self.portals.next()
    }

    fn is_empty(&self) -> bool {
        self.bytes.is_empty() && self.portals.len() == 0
    }
}

/// What can be sent.
pub trait Encode {
    /// Adds the value to a draft.
    fn encode(self, draft: &mut Draft);
}

/// What can be received.
pub trait Decode: Sized {
    /// Reads a value; none if what stands there is no such value.
    fn decode(rest: &mut Rest<'_>) -> Option<Self>;
}

macro_rules! number {
    ($($number:ty),*) => {$(
        impl Encode for $number {
            fn encode(self, draft: &mut Draft) {
                draft.bytes.extend_from_slice(&self.to_le_bytes());
            }
        }

        impl Decode for $number {
            fn decode(rest: &mut Rest<'_>) -> Option<Self> {
                let bytes = rest.bytes(size_of::<$number>())?;
                Some(<$number>::from_le_bytes(bytes.try_into().ok()?))
            }
        }
    )*};
}

number!(u8, u16, u32, u64, u128, i8, i16, i32, i64, i128, f32, f64);

impl Encode for () {
    fn encode(self, _draft: &mut Draft) {}
}

impl Decode for () {
    fn decode(_rest: &mut Rest<'_>) -> Option<Self> {
        Some(())
    }
}

impl Encode for bool {
    fn encode(self, draft: &mut Draft) {
        u8::from(self).encode(draft);
    }
}

impl Decode for bool {
    fn decode(rest: &mut Rest<'_>) -> Option<Self> {
        match u8::decode(rest)? {
            0 => Some(false),
            1 => Some(true),
            _ => None,
        }
    }
}

/// A length has 32 bits, more than a parcel can have.
fn encode_length(length: usize, draft: &mut Draft) {
    u32::try_from(length).unwrap_or(u32::MAX).encode(draft);
}

fn decode_length(rest: &mut Rest<'_>) -> Option<usize> {
    usize::try_from(u32::decode(rest)?).ok()
}

impl Encode for String {
    fn encode(self, draft: &mut Draft) {
        encode_length(self.len(), draft);
        draft.bytes.extend_from_slice(self.as_bytes());
    }
}

impl Decode for String {
    fn decode(rest: &mut Rest<'_>) -> Option<Self> {
        let length = decode_length(rest)?;
        String::from_utf8(rest.bytes(length)?.to_vec()).ok()
    }
}

impl<T: Encode> Encode for Vec<T> {
    fn encode(self, draft: &mut Draft) {
        encode_length(self.len(), draft);
        for value in self {
            value.encode(draft);
        }
    }
}

impl<T: Decode> Decode for Vec<T> {
    fn decode(rest: &mut Rest<'_>) -> Option<Self> {
        let length = decode_length(rest)?;
        let mut values = Vec::new();
        for _ in 0..length {
            values.push(T::decode(rest)?);
        }
        Some(values)
    }
}

impl<T: Encode> Encode for Option<T> {
    fn encode(self, draft: &mut Draft) {
        self.is_some().encode(draft);
        if let Some(value) = self {
            value.encode(draft);
        }
    }
}

impl<T: Decode> Decode for Option<T> {
    fn decode(rest: &mut Rest<'_>) -> Option<Self> {
        Some(if bool::decode(rest)? {
            Some(T::decode(rest)?)
        } else {
            None
        })
    }
}

macro_rules! tuple {
    ($($name:ident $value:ident),*) => {
        impl<$($name: Encode),*> Encode for ($($name,)*) {
            fn encode(self, draft: &mut Draft) {
                let ($($value,)*) = self;
                $($value.encode(draft);)*
            }
        }

        impl<$($name: Decode),*> Decode for ($($name,)*) {
            fn decode(rest: &mut Rest<'_>) -> Option<Self> {
                Some(($($name::decode(rest)?,)*))
            }
        }
    };
}

tuple!(A a);
tuple!(A a, B b);
tuple!(A a, B b, C c);
tuple!(A a, B b, C c, D d);

impl Encode for Portal {
    fn encode(self, draft: &mut Draft) {
        draft.portals.push(self);
    }
}

impl Decode for Portal {
    fn decode(rest: &mut Rest<'_>) -> Option<Self> {
        rest.portal()
    }
}

/// The end of a channel at which values are sent. The portal below it is closed when it is dropped.
pub struct Sender<T> {
    portal: Portal,
    of: PhantomData<fn(T)>,
}

/// The end of a channel at which values are received. The portal below it is closed when it is dropped.
pub struct Receiver<T> {
    portal: Portal,
    of: PhantomData<fn() -> T>,
}

/// A value that wasn't sent, and why.
pub struct NotSent<T> {
    /// Why the send was refused.
    pub why: Refused,
    /// The value, which is as it was.
    pub value: T,
}

/// Why no value was received.
#[derive(Debug)]
pub enum NotReceived {
    /// The receive was refused.
    Refused(Refused),
    /// What has come is no such value. (Its portals were closed, as far as they were read.)
    NoValue(Parcel),
}

impl fmt::Display for NotReceived {
    fn fmt(&self, f: &mut fmt::Formatter<'_>) -> fmt::Result {
        match self {
            NotReceived::Refused(why) => why.fmt(f),
            NotReceived::NoValue(_) => f.write_str("what has come is no value of the channel"),
        }
    }
}

impl std::error::Error for NotReceived {}

impl<T> fmt::Debug for NotSent<T> {
    fn fmt(&self, f: &mut fmt::Formatter<'_>) -> fmt::Result {
        write!(f, "NotSent({:?})", self.why)
    }
}

impl<T> fmt::Display for NotSent<T> {
    fn fmt(&self, f: &mut fmt::Formatter<'_>) -> fmt::Result {
        self.why.fmt(f)
    }
}

impl<T> std::error::Error for NotSent<T> {}

/// Opens a channel, both ends of which are this node's: each may be sent to another in a value. As [`Node::open`].
pub fn channel<T>(node: &Node) -> Result<(Sender<T>, Receiver<T>), Refused> {
    let (sends, receives) = node.open()?;
    Ok((Sender::from(sends), Receiver::from(receives)))
}

/// The value that a parcel is, all of it; else the parcel, without the portals that were read.
fn value_of<T: Decode>(mut parcel: Parcel) -> Result<T, Parcel> {
    let portals = std::mem::take(&mut parcel.portals);
    let mut rest = Rest {
        bytes: &parcel.bytes,
        portals: portals.into_iter(),
    };
    match T::decode(&mut rest) {
        Some(value) if rest.is_empty() => Ok(value),
        _ => {
            parcel.portals = rest.portals.collect();
            Err(parcel)
        }
    }
}

impl<T: Encode + Decode> Sender<T> {
    /// Sends a value, without waiting for a receiver; as [`Portal::send_with`]. A value is refused `TooMany` if it has more than 65,536 bytes or 8 portals.
    /// What is refused comes back.
    pub fn send(&self, value: T) -> Result<(), NotSent<T>> {
        let mut draft = Draft::default();
        value.encode(&mut draft);
        match self.portal.send_with(&draft.bytes, draft.portals) {
            Ok(()) => Ok(()),
            Err(Unsent { why, portals }) => {
                let parcel = Parcel {
                    number: 0,
                    bytes: draft.bytes,
                    portals,
                };
                match value_of(parcel) {
                    Ok(value) => Err(NotSent { why, value }),
                    Err(_) => panic!("Decode reads something else than Encode has written"),
                }
            }
        }
    }
}

impl<T: Decode> Receiver<T> {
    /// Receives the next value, and sleeps until there is one; as [`Portal::recv`].
    pub fn recv(&self) -> Result<T, NotReceived> {
        Self::read(self.portal.recv())
    }

    /// The same, but it sleeps no longer than is said; as [`Portal::recv_timeout`].
    pub fn recv_timeout(&self, timeout: Duration) -> Result<T, NotReceived> {
        Self::read(self.portal.recv_timeout(timeout))
    }

    /// The same without sleeping; as [`Portal::try_recv`].
    pub fn try_recv(&self) -> Result<T, NotReceived> {
        Self::read(self.portal.try_recv())
    }

    /// The same for a task; as [`Portal::recv_async`].
    pub async fn recv_async(&self) -> Result<T, NotReceived> {
        Self::read(self.portal.recv_async().await)
    }

    /// The values that come, one after the other, until a [`Receiver::recv`] gives none.
    pub fn iter(&self) -> impl Iterator<Item = T> + '_ {
        std::iter::from_fn(|| self.recv().ok())
    }

    /// The value of a parcel that was received at this receiver's portal, as by [`Node::recv_any`].
    pub fn read(received: Result<Parcel, Refused>) -> Result<T, NotReceived> {
        match received {
            Ok(parcel) => value_of(parcel).map_err(NotReceived::NoValue),
            Err(why) => Err(NotReceived::Refused(why)),
        }
    }
}

macro_rules! end {
    ($end:ident) => {
        impl<T> $end<T> {
            /// The portal below.
            pub fn portal(&self) -> &Portal {
                &self.portal
            }

            /// The portal below, without the type of its values.
            pub fn into_portal(self) -> Portal {
                self.portal
            }
        }

        /// Who makes an end of a portal says what its values are: another end says nothing of it.
        impl<T> From<Portal> for $end<T> {
            fn from(portal: Portal) -> Self {
                $end {
                    portal,
                    of: PhantomData,
                }
            }
        }

        impl<T> Encode for $end<T> {
            fn encode(self, draft: &mut Draft) {
                self.portal.encode(draft);
            }
        }

        impl<T> Decode for $end<T> {
            fn decode(rest: &mut Rest<'_>) -> Option<Self> {
                Some($end::from(rest.portal()?))
            }
        }

        impl<T> fmt::Debug for $end<T> {
            fn fmt(&self, f: &mut fmt::Formatter<'_>) -> fmt::Result {
                write!(f, concat!(stringify!($end), "({:?})"), self.portal)
            }
        }
    };
}

end!(Sender);
end!(Receiver);
