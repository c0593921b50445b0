use ipcz_portals::{cells, first_portal, lasting_cells, Cell, Parcel, Portal, Refused};
use std::sync::atomic::{AtomicBool, Ordering};
use std::thread;

fn left() -> Portal {
    first_portal(0, 1, 2)
}

fn right() -> Portal {
    first_portal(1, 0, 2)
}

/// Takes turns of the node, and lets other threads run if it had none.
fn serve(cell: &mut Cell) -> Result<(), Refused> {
    match cell.acts(64) {
        Ok(0) => thread::yield_now(),
        Ok(_) | Err(Refused::Raced) => {}
        Err(why) => return Err(why),
    }
    Ok(())
}

/// Takes turns until a parcel has come, or the other thread has ended.
fn get(cell: &mut Cell, at: Portal, ended: &AtomicBool) -> Result<Parcel, Refused> {
    loop {
        match cell.get(at) {
            Err(Refused::Empty) if !ended.load(Ordering::SeqCst) => serve(cell)?,
            answer => return answer,
        }
    }
}

/// Node 0 sends a portal away and numbered parcels after it, and gets an answer.
fn ask(cell: &mut Cell, ended: &AtomicBool) -> Result<Vec<u8>, Refused> {
    let (kept, sent) = cell.open()?;
    cell.put(left(), b"", &[sent])?;
    for number in 0..100u64 {
        cell.put(kept, number.to_string().as_bytes(), &[])?;
        serve(cell)?;
    }
    Ok(get(cell, kept, ended)?.bytes)
}

/// Node 1 gets them, and answers.
fn reply(cell: &mut Cell, ended: &AtomicBool) -> Result<(), Refused> {
    let moved = get(cell, right(), ended)?.portals[0];
    for number in 0..100u64 {
        let parcel = get(cell, moved, ended)?;
        assert_eq!(parcel.number, number);
        assert_eq!(parcel.bytes, number.to_string().into_bytes());
    }
    cell.put(moved, b"all came", &[])?;
    while !ended.load(Ordering::SeqCst) {
        serve(cell)?;
    }
    Ok(())
}

#[test]
fn two_threads_own_a_node_each() -> Result<(), Refused> {
    let mut both = cells(2, 8)?;
    let (mut one, mut zero) = (both.pop().unwrap(), both.pop().unwrap());
    assert_eq!((zero.node(), one.node()), (0, 1));
    let (asked, replied) = (AtomicBool::new(false), AtomicBool::new(false));
    thread::scope(|scope| {
        let replies = scope.spawn(|| {
            let answer = reply(&mut one, &asked);
            replied.store(true, Ordering::SeqCst);
            answer
        });
        let answer = ask(&mut zero, &replied);
        asked.store(true, Ordering::SeqCst);
        assert_eq!(replies.join().unwrap(), Ok(()));
        assert_eq!(answer?, b"all came");
        Ok(())
    })
}

#[test]
fn calls_of_a_cell_are_refused() -> Result<(), Refused> {
    for (nodes, words) in [(0, 8), (65, 4096), (3, 2), (2, 4097), (300, 4096)] {
        assert_eq!(cells(nodes, words).err(), Some(Refused::TooMany));
    }
    let mut both = cells(2, 1)?;
    let cell = &mut both[0];
    assert_eq!(cell.open(), Err(Refused::NoWord));
    assert_eq!(cell.put(right(), b"x", &[]), Err(Refused::Stranger));
    assert_eq!(cell.put_printed(left(), b"\n", &[]), Err(Refused::BadData));
    assert_eq!(cell.put(left(), b"\n", &[]), Ok(0));
    assert_eq!(cell.put(left(), b"x", &[left()]), Err(Refused::SelfAttach));
    assert_eq!(
        (
            cell.holds(left()),
            cell.holds(right()),
            cell.claimed(),
            cell.quiet()
        ),
        (true, false, 1, false)
    );
    assert_eq!((cell.word(0), cell.word(1)), (Some(3), None));
    assert_eq!(cell.ready(), []);
    let status = cell.look(left())?;
    assert_eq!(
        (status.next, status.waiting, status.peer_closed),
        (0, 0, false)
    );
    assert_eq!(cell.has_arrived(left()), Ok(true));
    cell.close(left())?;
    assert_eq!(cell.look(left()), Err(Refused::Stranger));
    assert_eq!(cell.has_arrived(left()), Err(Refused::Stranger));
    assert_eq!(cell.close(left()), Err(Refused::Stranger));
    assert_eq!(cell.get(left()), Err(Refused::Stranger));
    Ok(())
}

/// Has both nodes take turns until neither has any.
fn rest(cells: &mut [Cell]) -> Result<(), Refused> {
    loop {
        let mut all = 0;
        for cell in cells.iter_mut() {
            all += cell.acts(1000)?;
        }
        if all == 0 {
            return Ok(());
        }
    }
}

/// Node 0 asks node 1, which answers at the portal that came with the question.
fn request(cells: &mut [Cell]) -> Result<Vec<u8>, Refused> {
    let (kept, sent) = cells[0].open()?;
    cells[0].put(left(), b"well?", &[sent])?;
    rest(cells)?;
    let reply = cells[1].get(right())?.portals[0];
    cells[1].put(reply, b"yes", &[])?;
    cells[1].close(reply)?;
    rest(cells)?;
    let answer = cells[0].get(kept)?;
    cells[0].close(kept)?;
    rest(cells)?;
    Ok(answer.bytes)
}

#[test]
fn link_words_come_back() -> Result<(), Refused> {
    for (nodes, slots) in [(0, 8), (65, 4096), (3, 2), (1, 0), (2, 1_048_577)] {
        assert_eq!(lasting_cells(nodes, slots).err(), Some(Refused::TooMany));
    }
    let mut both = lasting_cells(2, 3)?;
    for _ in 0..100 {
        assert_eq!(request(&mut both)?, b"yes");
    }
    assert!(both[0].claimed() > 200);
    assert_eq!(both[0].word(0), None);
    Ok(())
}
