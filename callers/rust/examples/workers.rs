//! A fan-out of workers: three threads sleep at one portal, and whoever slept longest gets the next job.
use ipcz_portals::nodes::{Loop, Portal};
use ipcz_portals::Refused;
use std::thread;

fn number(bytes: &[u8]) -> u32 {
    u32::from_le_bytes(bytes.try_into().unwrap())
}

/// Takes jobs until no more can come.
fn work(jobs: Portal) -> Result<(), Refused> {
    for job in jobs.iter() {
        let square = number(&job.bytes).pow(2);
        jobs.send(&square.to_le_bytes())?;
    }
    Ok(())
}

fn main() -> Result<(), Refused> {
    let nodes = Loop::new(2)?;
    let start = |_| {
        let jobs = nodes.node(1).first(0);
        thread::spawn(move || work(jobs))
    };
    let workers: Vec<_> = (0..3).map(start).collect();
    let jobs = nodes.node(0).first(1);
    for job in 1..=100u32 {
        jobs.send(&job.to_le_bytes())?;
    }
    let squares: Vec<u32> = jobs.iter().take(100).map(|it| number(&it.bytes)).collect();
    let (done, sum) = (squares.len(), squares.iter().sum::<u32>());
    println!("{done} jobs, the squares add up to {sum}");
    jobs.close()?;
    for worker in workers {
        worker.join().unwrap()?;
    }
    Ok(())
}
