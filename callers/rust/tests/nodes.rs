use ipcz_portals::nodes::{Loop, Node, Parcel, Portal};
use ipcz_portals::{Refused, Status};
use std::future::Future;
use std::sync::Arc;
use std::task::{Context, Poll, Wake};
use std::thread;
use std::time::{Duration, Instant};

fn pair() -> Result<(Loop, Portal, Portal), Refused> {
    let nodes = Loop::new(2)?;
    let (left, right) = (nodes.node(0).first(1), nodes.node(1).first(0));
    Ok((nodes, left, right))
}

fn refused<T>(answer: Result<T, Refused>) -> Option<Refused> {
    answer.err()
}

#[test]
fn limits_are_refused() -> Result<(), Refused> {
    assert_eq!(refused(Loop::new(0)), Some(Refused::TooMany));
    assert_eq!(refused(Loop::new(65)), Some(Refused::TooMany));
    assert_eq!(refused(Loop::with_slots(64, 2015)), Some(Refused::TooMany));
    let nodes = Loop::with_slots(8, 28)?;
    assert_eq!(refused(nodes.node(7).open()), Some(Refused::NoWord));
    let (_nodes, left, _) = pair()?;
    assert_eq!(left.send(&[0; 65_537]), Err(Refused::TooMany));
    Ok(())
}

#[test]
fn parcels_have_any_bytes() -> Result<(), Refused> {
    let (_nodes, left, right) = pair()?;
    let wide: Vec<u8> = (0..65_536u32).map(|i| i as u8).collect();
    assert_eq!(refused(right.try_recv()), Some(Refused::Empty));
    left.send(b"")?;
    left.send(&wide)?;
    assert_eq!(right.recv()?.bytes, b"");
    let parcel = right.recv()?;
    assert_eq!((parcel.number, parcel.bytes), (1, wide));
    Ok(())
}

#[test]
fn a_look_takes_nothing() -> Result<(), Refused> {
    let (nodes, left, right) = pair()?;
    let (kept, sent) = nodes.node(0).open()?;
    assert_eq!(right.look()?, Status::default());
    left.send_with(b"carry", [sent])?;
    kept.send(b"one")?;
    let seen = right.look()?;
    assert_eq!(
        (seen.next, seen.waiting, seen.size, seen.count),
        (0, 1, 5, 1)
    );
    let Parcel { portals, .. } = right.recv()?;
    let seen = portals[0].look()?;
    assert_eq!((seen.next, seen.waiting, seen.peer_closed), (0, 1, false));
    assert!(portals[0].has_arrived()? && kept.has_arrived()?);
    drop(kept);
    assert!(portals[0].look()?.peer_closed);
    assert_eq!(portals[0].recv()?.bytes, b"one");
    Ok(())
}

#[test]
fn a_wait_ends_in_time() -> Result<(), Refused> {
    let (_nodes, _, right) = pair()?;
    let begun = Instant::now();
    let answer = right.recv_timeout(Duration::from_millis(30));
    assert_eq!(refused(answer), Some(Refused::Empty));
    assert!(begun.elapsed() >= Duration::from_millis(30));
    Ok(())
}

#[test]
fn a_dropped_portal_closes() -> Result<(), Refused> {
    let (nodes, left, right) = pair()?;
    let (kept, sent) = nodes.node(0).open()?;
    left.send_with(b"it", [sent])?;
    let Parcel { portals, .. } = right.recv()?;
    let sleeper = thread::spawn(move || kept.recv().err());
    thread::sleep(Duration::from_millis(10));
    drop(portals);
    assert_eq!(sleeper.join().unwrap(), Some(Refused::PeerClosed));
    // (those from the start are had again)
    drop(right);
    left.send(b"still")?;
    assert_eq!(nodes.node(1).first(0).recv()?.bytes, b"still");
    Ok(())
}

#[test]
fn a_refused_send_gives_its_portals_back() -> Result<(), Refused> {
    let (nodes, left, right) = pair()?;
    let (first, second) = nodes.node(0).open()?;
    let name = second.name();
    let unsent = first.send_with(b"", [second]).unwrap_err();
    assert_eq!(unsent.why, Refused::PeerAttach);
    let unsent = right.send_with(b"", unsent.portals).unwrap_err();
    assert_eq!(unsent.why, Refused::Stranger);
    left.send_with(b"", unsent.portals)?;
    assert_eq!(right.recv()?.portals[0].name(), name);
    Ok(())
}

#[test]
fn the_first_of_some_portals_is_told() -> Result<(), Refused> {
    let (nodes, left, right) = pair()?;
    let (kept, sent) = nodes.node(0).open()?;
    left.send_with(b"", [sent])?;
    let came = right.recv()?.portals.remove(0);
    let node = nodes.node(1);
    let none = node.recv_any(&[&right, &came], Some(Duration::ZERO));
    assert_eq!(refused(none), Some(Refused::Empty));
    assert_eq!(refused(node.recv_any(&[], None)), Some(Refused::Stranger));
    let strange = node.recv_any(&[&left], None);
    assert_eq!(refused(strange), Some(Refused::Stranger));
    kept.send(b"here")?;
    let (place, parcel) = node.recv_any(&[&right, &came], None)?;
    assert_eq!((place, parcel?.bytes), (1, b"here".to_vec()));
    drop(kept);
    let (place, parcel) = node.recv_any(&[&right, &came], None)?;
    assert_eq!((place, refused(parcel)), (1, Some(Refused::PeerClosed)));
    Ok(())
}

#[test]
fn a_stopped_loop_ends_all_waiting() -> Result<(), Refused> {
    let (nodes, left, right) = pair()?;
    let sleeper = thread::spawn(move || (right.recv().err(), right));
    thread::sleep(Duration::from_millis(10));
    drop(nodes);
    let (why, right) = sleeper.join().unwrap();
    assert_eq!(why, Some(Refused::Stopped));
    left.send(b"late")?;
    assert_eq!(right.recv()?.bytes, b"late");
    assert_eq!(refused(right.try_recv()), Some(Refused::Stopped));
    Ok(())
}

struct Unpark(thread::Thread);

impl Wake for Unpark {
    fn wake(self: Arc<Self>) {
        self.0.unpark();
    }
}

fn block_on<T>(task: impl Future<Output = T>) -> T {
    let waker = Arc::new(Unpark(thread::current())).into();
    let mut task = std::pin::pin!(task);
    loop {
        match task.as_mut().poll(&mut Context::from_waker(&waker)) {
            Poll::Ready(answer) => return answer,
            Poll::Pending => thread::park(),
        }
    }
}

#[test]
fn a_task_is_woken() -> Result<(), Refused> {
    let (_nodes, left, right) = pair()?;
    let other = thread::spawn(move || {
        for number in 0..1000u32 {
            thread::yield_now();
            left.send(&number.to_le_bytes())?;
        }
        left.close()
    });
    block_on(async {
        for number in 0..1000u32 {
            let parcel = right.recv_async().await?;
            assert_eq!(parcel.bytes, number.to_le_bytes());
        }
        assert_eq!(refused(right.recv_async().await), Some(Refused::PeerClosed));
        other.join().unwrap()
    })
}

/// Answers a number; whether the channel is to go on to the next node.
fn answer(channel: &mut (Portal, u32), parcel: &Parcel) -> Result<bool, Refused> {
    channel.0.send(&parcel.bytes)?;
    channel.1 += 1;
    Ok(channel.1 == 7)
}

/// Answers each number at the portals that come, and hands each on to the next of the nodes 1 to 3 after some.
fn host(node: Node) -> Result<(), Refused> {
    let others = (0..4).filter(|it| *it != node.number());
    let firsts: Vec<Portal> = others.map(|it| node.first(it)).collect();
    let mut channels: Vec<(Portal, u32)> = Vec::new();
    loop {
        let mut all: Vec<&Portal> = firsts.iter().collect();
        all.extend(channels.iter().map(|it| &it.0));
        let (place, parcel) = match node.recv_any(&all, None) {
            Err(Refused::Stopped) => return Ok(()),
            other => other?,
        };
        let Some(at) = place.checked_sub(firsts.len()) else {
            channels.extend(parcel?.portals.into_iter().map(|it| (it, 0)));
            continue;
        };
        if parcel.is_err() {
            channels.remove(at);
        } else if answer(&mut channels[at], &parcel?)? {
            let next = node.first(node.number() % 3 + 1);
            next.send_with(b"", [channels.remove(at).0])?;
        }
    }
}

fn ask(node: Node, times: u32) -> Result<(), Refused> {
    let (kept, sent) = node.open()?;
    node.first(1).send_with(b"", [sent])?;
    for number in 0..times {
        kept.send(&number.to_le_bytes())?;
        let answer = kept.recv_timeout(Duration::from_secs(60))?;
        assert_eq!(answer.bytes, number.to_le_bytes());
    }
    Ok(())
}

/// `IPCZ_STRESS` sets how often each of eight threads asks.
#[test]
fn many_sleepers() -> Result<(), Refused> {
    let times = std::env::var("IPCZ_STRESS").map_or(250, |it| it.parse().unwrap());
    let nodes = Loop::new(4)?;
    let hosts: Vec<_> = (1..4)
        .map(|it| nodes.node(it))
        .map(|it| thread::spawn(|| host(it)))
        .collect();
    let asking: Vec<_> = (0..8)
        .map(|_| nodes.node(0))
        .map(|it| thread::spawn(move || ask(it, times)))
        .collect();
    for it in asking {
        it.join().unwrap()?;
    }
    nodes.stop();
    for it in hosts {
        it.join().unwrap()?;
    }
    Ok(())
}
