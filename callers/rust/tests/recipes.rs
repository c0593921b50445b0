//! The recipes of docs/RECIPES.md, on one thread.
use ipcz_portals::{first_portal, Portal, Refused, World};

/// Lets the nodes work until all that was put has come to where it can be got.
fn rest(world: &mut World) -> Result<(), Refused> {
    assert!(world.settle(1000)?.quiet);
    Ok(())
}

/// The text of the next parcel, if it has come.
fn text(world: &mut World, node: u8, at: Portal) -> Result<String, Refused> {
    Ok(String::from_utf8(world.get(node, at)?.bytes).unwrap())
}

#[test]
fn request_and_reply() -> Result<(), Refused> {
    let (asks, serves) = (first_portal(0, 1, 2), first_portal(1, 0, 2));
    let mut world = World::new(2, 8)?;
    let (answer, to) = world.open(0)?;
    world.put(0, asks, b"how much?", &[to])?;
    rest(&mut world)?;
    let request = world.get(1, serves)?;
    world.put(1, request.portals[0], b"42", &[])?;
    world.close(1, request.portals[0])?;
    rest(&mut world)?;
    assert_eq!(text(&mut world, 0, answer)?, "42");
    assert_eq!(world.get(0, answer), Err(Refused::PeerClosed));
    world.close(0, answer)
}

#[test]
fn fan_out() -> Result<(), Refused> {
    let mut world = World::new(4, 20)?;
    let mut channels = Vec::new();
    for node in 1..4 {
        let (kept, sent) = world.open(0)?;
        world.put(0, first_portal(0, node, 4), b"news come here", &[sent])?;
        channels.push(kept);
    }
    for channel in channels {
        world.put(0, channel, b"news", &[])?;
    }
    rest(&mut world)?;
    for node in 1..4 {
        let channel = world.get(node, first_portal(node, 0, 4))?.portals[0];
        assert_eq!(text(&mut world, node, channel)?, "news");
    }
    Ok(())
}

#[test]
fn handing_a_channel_over() -> Result<(), Refused> {
    let mut world = World::new(3, 12)?;
    let (client, server) = world.open(0)?;
    world.put(0, client, b"one", &[])?;
    world.put(0, first_portal(0, 1, 3), b"serve this", &[server])?;
    rest(&mut world)?;
    let server = world.get(1, first_portal(1, 0, 3))?.portals[0];
    assert_eq!(text(&mut world, 1, server)?, "one");
    world.put(0, client, b"two", &[])?;
    world.put(1, first_portal(1, 2, 3), b"you go on", &[server])?;
    world.put(0, client, b"three", &[])?;
    rest(&mut world)?;
    let server = world.get(2, first_portal(2, 1, 3))?.portals[0];
    assert_eq!(text(&mut world, 2, server)?, "two");
    assert_eq!(text(&mut world, 2, server)?, "three");
    world.put(2, server, b"done", &[])?;
    rest(&mut world)?;
    assert_eq!(text(&mut world, 0, client)?, "done");
    Ok(())
}

/// Sends no more parcels than the receiver has given credits for.
struct Sender {
    node: u8,
    at: Portal,
    credits: u64,
}

impl Sender {
    /// Whether the parcel was sent: it isn't while no credit is left.
    fn send(&mut self, world: &mut World, bytes: &[u8]) -> Result<bool, Refused> {
        loop {
            match text(world, self.node, self.at) {
                Ok(credits) => self.credits += credits.parse::<u64>().unwrap(),
                Err(Refused::Empty) => break,
                Err(why) => return Err(why),
            }
        }
        if self.credits == 0 {
            return Ok(false);
        }
        world.put(self.node, self.at, bytes, &[])?;
        self.credits -= 1;
        Ok(true)
    }
}

#[test]
fn back_pressure_by_credits() -> Result<(), Refused> {
    let (at, receives) = (first_portal(0, 1, 2), first_portal(1, 0, 2));
    let mut world = World::new(2, 1)?;
    let (node, credits) = (0, 0);
    let mut sender = Sender { node, at, credits };
    world.put(1, receives, b"2", &[])?;
    rest(&mut world)?;
    assert!(sender.send(&mut world, b"item 1")?);
    assert!(sender.send(&mut world, b"item 2")?);
    assert!(!sender.send(&mut world, b"item 3")?);
    rest(&mut world)?;
    assert_eq!(text(&mut world, 1, receives)?, "item 1");
    world.put(1, receives, b"1", &[])?;
    rest(&mut world)?;
    assert!(sender.send(&mut world, b"item 3")?);
    Ok(())
}

#[test]
fn shutting_down() -> Result<(), Refused> {
    let mut world = World::new(2, 8)?;
    let (ends, reads) = world.open(0)?;
    world.put(0, first_portal(0, 1, 2), b"take it", &[reads])?;
    rest(&mut world)?;
    let reads = world.get(1, first_portal(1, 0, 2))?.portals[0];
    world.put(0, ends, b"last word", &[])?;
    world.close(0, ends)?;
    rest(&mut world)?;
    assert_eq!(text(&mut world, 1, reads)?, "last word");
    assert_eq!(world.get(1, reads), Err(Refused::PeerClosed));
    assert_eq!(
        world.put(1, reads, b"too late", &[]),
        Err(Refused::PeerClosed)
    );
    world.close(1, reads)
}
