use ipcz_portals::nodes::{Loop, Portal};
use ipcz_portals::typed::{channel, Decode, Draft, Encode, NotReceived, Receiver, Rest, Sender};
use ipcz_portals::Refused;
use std::fmt::Debug;
use std::thread;
use std::time::Duration;

/// Sends a value and receives it.
fn passes<T: Encode + Decode + Clone + PartialEq + Debug>(nodes: &Loop, value: T) {
    let (sends, receives) = channel(&nodes.node(0)).unwrap();
    sends.send(value.clone()).unwrap();
    assert_eq!(receives.recv().unwrap(), value);
}

#[test]
fn values_pass() -> Result<(), Refused> {
    let nodes = Loop::new(1)?;
    passes(&nodes, ());
    passes(&nodes, true);
    passes(&nodes, 0xab_u8);
    passes(&nodes, i64::MIN);
    passes(&nodes, 1.5_f64);
    passes(&nodes, String::from("grüß"));
    passes(
        &nodes,
        Some(vec![(1_u16, String::new()), (2, String::from("b"))]),
    );
    passes(
        &nodes,
        (None::<u8>, Vec::<u32>::new(), [7_u64; 3].to_vec(), -1_i8),
    );
    Ok(())
}

#[test]
fn a_number_has_its_bytes_in_order() {
    let mut draft = Draft::default();
    (0x0102_u16, String::from("a")).encode(&mut draft);
    assert_eq!(draft.bytes, [2, 1, 1, 0, 0, 0, b'a']);
    assert!(draft.portals.is_empty());
}

#[test]
fn an_end_travels() -> Result<(), Refused> {
    let nodes = Loop::new(3)?;
    let (sends, receives) = channel::<u32>(&nodes.node(0))?;
    let way: Sender<Receiver<u32>> = Sender::from(nodes.node(0).first(1));
    let server = {
        let came: Receiver<Receiver<u32>> = Receiver::from(nodes.node(1).first(0));
        thread::spawn(move || came.recv().unwrap().iter().sum::<u32>())
    };
    sends.send(1).unwrap();
    way.send(receives).unwrap();
    for value in 2..=10 {
        sends.send(value).unwrap();
    }
    drop(sends);
    assert_eq!(server.join().unwrap(), 55);
    Ok(())
}

#[test]
fn what_is_refused_comes_back() -> Result<(), Refused> {
    let nodes = Loop::new(1)?;
    let (sends, receives) = channel::<(String, Vec<Portal>)>(&nodes.node(0))?;
    let (kept, sent) = nodes.node(0).open()?;
    let long = "x".repeat(65_536);
    let back = sends.send((long.clone(), vec![sent])).unwrap_err();
    assert_eq!(back.why, Refused::TooMany);
    assert_eq!(back.value.0, long);
    let sent = &back.value.1[0];
    sent.send(b"still open")?;
    assert_eq!(kept.recv()?.bytes, b"still open");
    drop(receives);
    let back = sends.send((String::from("late"), Vec::new())).unwrap_err();
    assert_eq!(
        (back.why, back.value.0.as_str()),
        (Refused::PeerClosed, "late")
    );
    Ok(())
}

#[test]
fn what_is_no_value_is_told() -> Result<(), Refused> {
    let nodes = Loop::new(1)?;
    for bytes in [&b""[..], b"\x02", b"\x01\x00", b"\x00\x00\x00\x00\x00"] {
        let (plain, receives) = nodes.node(0).open()?;
        let receives: Receiver<bool> = Receiver::from(receives);
        plain.send(bytes)?;
        let Err(NotReceived::NoValue(parcel)) = receives.recv() else {
            panic!("{bytes:?} is no bool");
        };
        assert_eq!(parcel.bytes, bytes);
    }
    let (plain, receives) = nodes.node(0).open()?;
    let receives: Receiver<Vec<()>> = Receiver::from(receives);
    let (_kept, beside) = nodes.node(0).open()?;
    plain.send_with(&[0, 0, 0, 0], [beside])?;
    assert!(
        matches!(receives.recv(), Err(NotReceived::NoValue(parcel)) if parcel.portals.len() == 1)
    );
    Ok(())
}

#[test]
fn waits_end() -> Result<(), Refused> {
    let nodes = Loop::new(1)?;
    let (sends, receives) = channel::<u8>(&nodes.node(0))?;
    let empty = |it| matches!(it, Err(NotReceived::Refused(Refused::Empty)));
    assert!(empty(receives.try_recv()));
    assert!(empty(receives.recv_timeout(Duration::from_millis(10))));
    drop(sends);
    assert!(matches!(
        receives.recv(),
        Err(NotReceived::Refused(Refused::PeerClosed))
    ));
    assert_eq!(receives.iter().count(), 0);
    Ok(())
}

#[test]
fn the_first_of_several_is_received() -> Result<(), Refused> {
    let nodes = Loop::new(1)?;
    let node = nodes.node(0);
    let (_quiet, first) = channel::<u8>(&node)?;
    let (sends, second) = channel::<String>(&node)?;
    sends.send(String::from("here")).unwrap();
    let (place, parcel) = node.recv_any(&[first.portal(), second.portal()], None)?;
    assert_eq!(place, 1);
    assert_eq!(Receiver::<String>::read(parcel).unwrap(), "here");
    Ok(())
}

/// A type of one's own.
#[derive(Debug, PartialEq, Clone)]
enum Shape {
    Point,
    Circle(u32),
}

impl Encode for Shape {
    fn encode(self, draft: &mut Draft) {
        match self {
            Shape::Point => None,
            Shape::Circle(radius) => Some(radius),
        }
        .encode(draft);
    }
}

impl Decode for Shape {
    fn decode(rest: &mut Rest<'_>) -> Option<Self> {
        Some(Option::decode(rest)?.map_or(Shape::Point, Shape::Circle))
    }
}

#[test]
fn own_types_pass() -> Result<(), Refused> {
    let nodes = Loop::new(1)?;
    passes(&nodes, vec![Shape::Point, Shape::Circle(3)]);
    Ok(())
}
