//! A thread sleeps until a parcel comes, and says what it was.
use ipcz_portals::{nodes::Loop, Refused};
use std::thread;

fn main() -> Result<(), Refused> {
    let nodes = Loop::new(2)?;
    let portal = nodes.node(1).first(0);
    let listens = thread::spawn(move || {
        for parcel in portal.iter() {
            println!("{}", String::from_utf8_lossy(&parcel.bytes));
        }
    });
    let portal = nodes.node(0).first(1);
    portal.send(b"hello")?;
    portal.close()?;
    listens.join().unwrap();
    Ok(())
}
