//! Request and reply: the asker sends a portal for the answer along. The server is a thread that sleeps until a request comes.
use ipcz_portals::nodes::{Loop, Node, Portal};
use ipcz_portals::Refused;
use std::thread;

/// Answers each request "A * B" at the portal that came with it, which is then closed, until no more can come.
fn serve(requests: Portal) -> Result<(), Refused> {
    for request in requests.iter() {
        let text = String::from_utf8_lossy(&request.bytes);
        let numbers = text.split('*').map(|it| it.trim().parse::<u32>().unwrap());
        let product: u32 = numbers.product();
        request.portals[0].send(product.to_string().as_bytes())?;
    }
    Ok(())
}

/// Asks, and sleeps until the answer comes.
fn ask(node: &Node, text: &str) -> Result<(), Refused> {
    let (answer, to) = node.open()?;
    node.first(1).send_with(text.as_bytes(), [to])?;
    let number = String::from_utf8_lossy(&answer.recv()?.bytes).into_owned();
    println!("{text} = {number}, then {}", answer.recv().unwrap_err());
    Ok(())
}

fn main() -> Result<(), Refused> {
    let nodes = Loop::new(2)?;
    let requests = nodes.node(1).first(0);
    let server = thread::spawn(move || serve(requests));
    let node = nodes.node(0);
    ask(&node, "6 * 7")?;
    ask(&node, "111 * 111")?;
    node.first(1).close()?;
    server.join().unwrap()
}
