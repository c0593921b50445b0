//! What is put at a portal on node 0 is got at its peer on node 1.
use ipcz_portals::{first_portal, Refused, World};

fn main() -> Result<(), Refused> {
    let (left, right) = (first_portal(0, 1, 2), first_portal(1, 0, 2));
    let mut world = World::new(2, 8)?;
    world.put(0, left, b"hello", &[])?;
    world.settle(100)?;
    let parcel = world.get(1, right)?;
    let text = String::from_utf8_lossy(&parcel.bytes);
    println!("parcel {}: {text}", parcel.number);
    Ok(())
}
