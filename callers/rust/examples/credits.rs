//! Back-pressure by credits: the receiver grants four, and one more for each parcel that it has dealt with; the sender sleeps while it has none.
use ipcz_portals::nodes::{Loop, Portal};
use ipcz_portals::Refused;
use std::sync::atomic::{AtomicU32, Ordering};
use std::thread;

/// Sends no more parcels than the receiver has given credits for, and sleeps until it has one.
struct Sender {
    at: Portal,
    credits: u32,
}

impl Sender {
    fn send(&mut self, bytes: &[u8]) -> Result<(), Refused> {
        while self.at.try_recv().is_ok() {
            self.credits += 1;
        }
        if self.credits == 0 {
            self.at.recv()?;
            self.credits += 1;
        }
        self.at.send(bytes)?;
        self.credits -= 1;
        Ok(())
    }
}

/// Grants credits, and one more for each parcel.
fn receive(at: Portal, dealt_with: &AtomicU32) -> Result<(), Refused> {
    for _ in 0..4 {
        at.send(b"")?;
    }
    while let Ok(parcel) = at.recv() {
        let number = dealt_with.fetch_add(1, Ordering::SeqCst);
        assert_eq!(parcel.bytes, number.to_le_bytes());
        // (a credit that comes too late for a sender that has closed)
        let _ = at.send(b"");
    }
    Ok(())
}

fn main() -> Result<(), Refused> {
    let nodes = Loop::new(2)?;
    let at = nodes.node(0).first(1);
    let mut sender = Sender { at, credits: 0 };
    let (dealt_with, mut most) = (AtomicU32::new(0), 0);
    thread::scope(|scope| {
        let receiver = scope.spawn(|| receive(nodes.node(1).first(0), &dealt_with));
        for number in 0..1000u32 {
            sender.send(&number.to_le_bytes())?;
            most = most.max(number + 1 - dealt_with.load(Ordering::SeqCst));
        }
        sender.at.close()?;
        receiver.join().unwrap()
    })?;
    let bounded = u8::from(most <= 4);
    let count = dealt_with.into_inner();
    println!("{count} parcels, never more than 4 ahead: {bounded}");
    Ok(())
}
