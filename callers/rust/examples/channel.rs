//! A channel handed over: the server gives its portal to another node, which goes on, and the client notices nothing.
use ipcz_portals::nodes::{Loop, Node};
use ipcz_portals::Refused;
use std::thread;

/// Serves the channel that comes from the node before: answers so many words, and hands it on to the node behind, if there is one.
fn serve(node: Node, words: usize, is_last: bool) -> Result<(), Refused> {
    let me = node.number();
    let channel = node.first(me - 1).recv()?.portals.remove(0);
    for word in channel.iter().take(words) {
        let word = String::from_utf8_lossy(&word.bytes);
        channel.send(format!("node {me} heard {word}").as_bytes())?;
    }
    if !is_last {
        node.first(me + 1).send_with(b"you go on", [channel])?;
    }
    Ok(())
}

fn main() -> Result<(), Refused> {
    let nodes = Loop::new(3)?;
    let (one, two) = (nodes.node(1), nodes.node(2));
    let servers = [
        thread::spawn(move || serve(one, 1, false)),
        thread::spawn(move || serve(two, 2, true)),
    ];
    let node = nodes.node(0);
    let (client, server) = node.open()?;
    node.first(1).send_with(b"serve this", [server])?;
    for word in ["one", "two", "three"] {
        client.send(word.as_bytes())?;
    }
    for answer in client.iter() {
        println!("{}", String::from_utf8_lossy(&answer.bytes));
    }
    println!("{}", client.recv().unwrap_err());
    for server in servers {
        server.join().unwrap()?;
    }
    Ok(())
}
