use ipcz_portals::{first_portal, Parcel, Portal, Refused, Settled, World};
use std::sync::{Arc, Mutex};
use std::thread;

fn left() -> Portal {
    first_portal(0, 1, 2)
}

fn right() -> Portal {
    first_portal(1, 0, 2)
}

#[test]
fn a_portal_travels() -> Result<(), Refused> {
    let mut world = World::new(2, 8)?;
    let (kept, sent) = world.open(0)?;
    assert_eq!(world.put(0, left(), b"a portal", &[sent]), Ok(0));
    assert_eq!(world.get(1, right()), Err(Refused::Empty));
    assert!(world.settle(1000)?.quiet);
    assert_eq!(
        world.get(1, right()),
        Ok(Parcel {
            number: 0,
            bytes: b"a portal".to_vec(),
            portals: vec![sent]
        })
    );
    assert_eq!(
        (world.holder_of(kept), world.holder_of(sent)),
        (Some(0), Some(1))
    );
    assert_eq!(world.put(0, kept, b"over it", &[]), Ok(0));
    for turn in 0..20 {
        world.turn(turn % 2)?;
    }
    assert_eq!(world.get(1, sent)?.bytes, b"over it");
    world.close(0, kept)?;
    assert_eq!(world.close(0, kept), Err(Refused::Stranger));
    world.settle(1000)?;
    assert_eq!(world.get(1, sent), Err(Refused::PeerClosed));
    assert_eq!(
        world.settle(0),
        Ok(Settled {
            acts: 0,
            quiet: true
        })
    );
    Ok(())
}

#[test]
fn limits_are_refused() -> Result<(), Refused> {
    for (nodes, words) in [(0, 8), (65, 4096), (3, 2), (2, 4097)] {
        assert_eq!(World::new(nodes, words).err(), Some(Refused::TooMany));
    }
    let mut world = World::new(2, 1)?;
    assert_eq!(world.open(0), Err(Refused::NoWord));
    assert_eq!(
        world.put_printed(0, left(), &[b'x'; 257], &[]),
        Err(Refused::TooMany)
    );
    assert_eq!(
        world.put_printed(0, left(), b"\n", &[]),
        Err(Refused::BadData)
    );
    assert_eq!(
        world.put(0, left(), &[], &[left()]),
        Err(Refused::SelfAttach)
    );
    assert_eq!(
        world.put(0, left(), &[], &[right()]),
        Err(Refused::PeerAttach)
    );
    assert_eq!(world.turn(2), Err(Refused::Stranger));
    assert_eq!(
        (world.claimed(), world.word(0), world.word(1)),
        (1, Some(3), None)
    );
    Ok(())
}

#[test]
fn words_are_added() -> Result<(), Refused> {
    let mut world = World::new(2, 1)?;
    assert_eq!((world.words_left(), world.add_words(0)), (0, Ok(())));
    assert_eq!(world.add_words(u64::MAX), Err(Refused::OutOfMemory));
    assert_eq!(world.open(0), Err(Refused::NoWord));
    assert_eq!((world.add_words(5000), world.words_left()), (Ok(()), 5000));
    for _ in 0..5000 {
        world.open(0)?;
    }
    assert_eq!((world.claimed(), world.words_left()), (5001, 0));
    Ok(())
}

#[test]
fn a_node_without_a_word_asks_again() -> Result<(), Refused> {
    let mut world = World::new(2, 2)?;
    let (_kept, sent) = world.open(0)?;
    world.put(0, left(), b"m", &[sent])?;
    world.settle(1000)?;
    world.add_words(1)?;
    world.settle(1000)?;
    assert_eq!((world.claimed(), world.retry(), world.retry()), (2, 1, 0));
    world.settle(1000)?;
    assert_eq!((world.claimed(), world.retry()), (3, 0));
    Ok(())
}

#[test]
fn parcels_have_any_bytes() -> Result<(), Refused> {
    let mut world = World::new(2, 1)?;
    let bytes: Vec<u8> = (0..65_536_u32).map(|i| (i % 256) as u8).collect();
    assert_eq!(world.put(0, left(), &bytes, &[]), Ok(0));
    assert_eq!(
        world.put(0, left(), &[0; 65_537], &[]),
        Err(Refused::TooMany)
    );
    world.settle(1000)?;
    assert_eq!(world.get(1, right())?.bytes, bytes);
    Ok(())
}

#[test]
fn first_portals_are_their_nodes() -> Result<(), Refused> {
    let mut world = World::new(8, 28)?;
    for node in 0..8 {
        for other in (0..8).filter(|it| *it != node) {
            assert_eq!(world.holder_of(first_portal(node, other, 8)), Some(node));
        }
    }
    Ok(())
}

#[test]
fn a_world_is_shared_by_a_mutex() -> Result<(), Refused> {
    let world = Arc::new(Mutex::new(World::new(2, 1)?));
    let shared = Arc::clone(&world);
    let putter = thread::spawn(move || {
        for i in 0..200 {
            let mut world = shared.lock().unwrap();
            world.put(0, left(), i.to_string().as_bytes(), &[]).unwrap();
            world.settle(1000).unwrap();
        }
    });
    let mut got = 0;
    while got < 200 {
        let answer = world.lock().unwrap().get(1, right());
        match answer {
            Ok(parcel) => {
                assert_eq!(
                    (parcel.number, parcel.bytes),
                    (got, got.to_string().into_bytes())
                );
                got += 1;
            }
            Err(why) => {
                assert_eq!(why, Refused::Empty);
                thread::yield_now();
            }
        }
    }
    putter.join().unwrap();
    Ok(())
}
