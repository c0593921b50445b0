"""Queues that pass messages in one process, which `benchmark.py peers` runs in turn with ours: what else there is, on one thread and on two.

Each passes messages of 16 bytes, which have memory of their own or stand in the queue. On one thread one is put, and got, and then the next. On two,
which poll, one puts all and the other gets them; or a message goes there and back.

flume and crossbeam are built if cargo has them on this machine (Debian's `librust-flume-dev` and `librust-crossbeam-channel-dev` bring them), std's channel
if there is a cargo, and, in C, a queue under a mutex, a ring of 256 and a single slot if there is a C compiler; what can't be built is named.
"""
import pathlib
import shutil
import subprocess

RUST = """use std::sync::mpsc;
use std::thread;
use std::time::Instant;

trait Message: Send + 'static {
    fn of(round: u64) -> Self;
    fn first(&self) -> u8;
}

impl Message for Vec<u8> {
    fn of(round: u64) -> Self {
        let mut bytes = vec![b'x'; 16];
        bytes[0] = round as u8;
        bytes
    }
    fn first(&self) -> u8 {
        self[0]
    }
}

impl Message for [u8; 16] {
    fn of(round: u64) -> Self {
        let mut bytes = [b'x'; 16];
        bytes[0] = round as u8;
        bytes
    }
    fn first(&self) -> u8 {
        self[0]
    }
}

/// The two ends of a queue.
trait Queue {
    type Puts<M: Message>: Send + 'static;
    type Gets<M: Message>: Send + 'static;
    fn new<M: Message>() -> (Self::Puts<M>, Self::Gets<M>);
    fn put<M: Message>(puts: &Self::Puts<M>, message: M);
    fn try_get<M: Message>(gets: &Self::Gets<M>) -> Option<M>;
}

fn get<Q: Queue, M: Message>(gets: &Q::Gets<M>) -> M {
    loop {
        match Q::try_get(gets) {
            Some(message) => return message,
            None => std::hint::spin_loop(),
        }
    }
}

fn one<Q: Queue, M: Message>(rounds: u64) -> u64 {
    let (puts, gets) = Q::new::<M>();
    let mut sum = 0;
    for round in 0..rounds {
        Q::put(&puts, M::of(round));
        sum += u64::from(get::<Q, M>(&gets).first());
    }
    sum
}

fn two<Q: Queue, M: Message>(rounds: u64) -> u64 {
    let (puts, gets) = Q::new::<M>();
    let other = thread::spawn(move || {
        for round in 0..rounds {
            Q::put(&puts, M::of(round));
        }
        puts
    });
    let sum = (0..rounds).map(|_| u64::from(get::<Q, M>(&gets).first())).sum();
    other.join().unwrap();
    sum
}

fn back<Q: Queue, M: Message>(rounds: u64) -> u64 {
    let (puts, gets) = Q::new::<M>();
    let (puts_back, gets_back) = Q::new::<M>();
    let other = thread::spawn(move || {
        for _ in 0..rounds {
            Q::put(&puts_back, get::<Q, M>(&gets));
        }
        puts_back
    });
    let mut sum = 0;
    for round in 0..rounds {
        Q::put(&puts, M::of(round));
        sum += u64::from(get::<Q, M>(&gets_back).first());
    }
    other.join().unwrap();
    sum
}

struct Std;

impl Queue for Std {
    type Puts<M: Message> = mpsc::Sender<M>;
    type Gets<M: Message> = mpsc::Receiver<M>;
    fn new<M: Message>() -> (Self::Puts<M>, Self::Gets<M>) {
        mpsc::channel()
    }
    fn put<M: Message>(puts: &Self::Puts<M>, message: M) {
        puts.send(message).unwrap_or_else(|_| panic!());
    }
    fn try_get<M: Message>(gets: &Self::Gets<M>) -> Option<M> {
        gets.try_recv().ok()
    }
}
FOREIGN
fn measured<Q: Queue, M: Message>(what: &str, rounds: u64) -> u64 {
    match what {
        "one" => one::<Q, M>(rounds),
        "two" => two::<Q, M>(rounds),
        "back" => back::<Q, M>(rounds),
        _ => panic!(),
    }
}

fn main() {
    let arguments: Vec<String> = std::env::args().collect();
    let rounds = arguments[3].parse().unwrap();
    let start = Instant::now();
    let sum = if arguments[2] == "inline" {
        measured::<OWN, [u8; 16]>(&arguments[1], rounds)
    } else {
        measured::<OWN, Vec<u8>>(&arguments[1], rounds)
    };
    let spent = start.elapsed().as_nanos() as u64;
    assert!(sum > 0 || rounds < 2);
    println!("{}", spent / rounds);
}
"""

FOREIGN = """
struct Own;

impl Queue for Own {
    type Puts<M: Message> = CRATE::Sender<M>;
    type Gets<M: Message> = CRATE::Receiver<M>;
    fn new<M: Message>() -> (Self::Puts<M>, Self::Gets<M>) {
        CRATE::unbounded()
    }
    fn put<M: Message>(puts: &Self::Puts<M>, message: M) {
        puts.send(message).unwrap_or_else(|_| panic!());
    }
    fn try_get<M: Message>(gets: &Self::Gets<M>) -> Option<M> {
        gets.try_recv().ok()
    }
}
"""

# What cargo is asked for: a version of each that it may have.
VERSIONS = {"flume": "0", "crossbeam-channel": "0"}

# Where Debian's packages put crates, and what tells cargo to take them from there.
DEBIAN = pathlib.Path("/usr/share/cargo/registry")
CONFIG = f"""[source.crates-io]
replace-with = "debian"

[source.debian]
directory = "{DEBIAN}"
"""

C = """#include <pthread.h>
#include <stdatomic.h>
#include <stdio.h>
#include <stdlib.h>
#include <string.h>
#include <time.h>
#include <unistd.h>

struct bytes { char text[16]; };
#ifdef INLINE
typedef struct bytes message;
static message made(unsigned long round) {
    message it;
    memset(&it, 'x', sizeof it);
    it.text[0] = (char)round;
    return it;
}
static unsigned char used(message it) { return (unsigned char)it.text[0]; }
#else
typedef struct bytes *message;
static message made(unsigned long round) {
    message it = malloc(sizeof *it);
    memset(it, 'x', sizeof *it);
    it->text[0] = (char)round;
    return it;
}
static unsigned char used(message it) {
    unsigned char byte = (unsigned char)it->text[0];
    free(it);
    return byte;
}
#endif

#ifdef MUTEX
struct node { struct node *next; message it; };
struct queue { pthread_mutex_t lock; struct node *first, **last; };
static void begin(struct queue *q) { pthread_mutex_init(&q->lock, 0); q->first = 0; q->last = &q->first; }
static void put(struct queue *q, message it) {
    struct node *node = malloc(sizeof *node);
    node->next = 0;
    node->it = it;
    pthread_mutex_lock(&q->lock);
    *q->last = node;
    q->last = &node->next;
    pthread_mutex_unlock(&q->lock);
}
static message get(struct queue *q) {
    struct node *node;
    for (;;) {
        pthread_mutex_lock(&q->lock);
        node = q->first;
        if (node) break;
        pthread_mutex_unlock(&q->lock);
    }
    q->first = node->next;
    if (!q->first) q->last = &q->first;
    pthread_mutex_unlock(&q->lock);
    message it = node->it;
    free(node);
    return it;
}
#else
/* (a ring of SLOTS, for one that puts and one that gets) */
struct queue { _Alignas(128) atomic_ulong head; _Alignas(128) atomic_ulong tail; _Alignas(128) message slots[SLOTS]; };
static void begin(struct queue *q) { atomic_init(&q->head, 0); atomic_init(&q->tail, 0); }
static void put(struct queue *q, message it) {
    unsigned long tail = atomic_load_explicit(&q->tail, memory_order_relaxed);
    while (tail - atomic_load_explicit(&q->head, memory_order_acquire) == SLOTS) {}
    q->slots[tail % SLOTS] = it;
    atomic_store_explicit(&q->tail, tail + 1, memory_order_release);
}
static message get(struct queue *q) {
    unsigned long head = atomic_load_explicit(&q->head, memory_order_relaxed);
    while (atomic_load_explicit(&q->tail, memory_order_acquire) == head) {}
    message it = q->slots[head % SLOTS];
    atomic_store_explicit(&q->head, head + 1, memory_order_release);
    return it;
}
#endif

static struct queue there, here;
static unsigned long rounds;

static void *puts_all(void *nothing) {
    for (unsigned long round = 0; round < rounds; round++) put(&there, made(round));
    return nothing;
}
static void *answers(void *nothing) {
    for (unsigned long round = 0; round < rounds; round++) put(&here, get(&there));
    return nothing;
}
static void *waits(void *nothing) {
    pause();
    return nothing;
}

int main(int count, char **arguments) {
    if (count < 3) return 2;
    const char *what = arguments[1];
    rounds = strtoul(arguments[count - 1], 0, 10);
    begin(&there);
    begin(&here);
    pthread_t other;
    struct timespec start, end;
    unsigned long sum = 0;
    clock_gettime(CLOCK_MONOTONIC, &start);
    if (pthread_create(&other, 0, *what == 't' ? puts_all : *what == 'b' ? answers : waits, 0)) return 1;
    for (unsigned long round = 0; round < rounds; round++) {
        if (*what != 't') put(&there, made(round));
        sum += used(get(*what == 'b' ? &here : &there));
    }
    clock_gettime(CLOCK_MONOTONIC, &end);
    long spent = (end.tv_sec - start.tv_sec) * 1000000000L + end.tv_nsec - start.tv_nsec;
    printf("%ld\\n", spent / (long)rounds);
    return sum == 0 && rounds > 1;
}
"""

# In C: a name, and what the compiler is told.
IN_C = {"mutex and list": ["-DMUTEX"], "ring of 256": ["-DSLOTS=256"], "one slot": ["-DSLOTS=1"]}
KINDS = ("memory", "inline")

# A name, and the command that takes a measure (one, two, back) and a number of rounds, of messages with memory of their own and of those without.
Peer = tuple[str, dict[str, list]]


def cargo(folder: pathlib.Path, name: str | None) -> pathlib.Path | None:
    """The program with this crate, or with std's channel, or none: cargo asks no network for it."""
    (folder / "src").mkdir(parents=True, exist_ok=True)
    if DEBIAN.is_dir():
        (folder / ".cargo").mkdir(exist_ok=True)
        (folder / ".cargo/config.toml").write_text(CONFIG)
    wanted = f'{name} = "{VERSIONS[name]}"\n' if name else ""
    (folder / "Cargo.toml").write_text('[package]\nname = "peers"\nversion = "0.1.0"\nedition = "2021"\n\n[dependencies]\n' + wanted)
    foreign = FOREIGN.replace("CRATE", name.replace("-", "_")) if name else ""
    source = RUST.replace("FOREIGN", foreign).replace("OWN", "Own" if name else "Std")
    (folder / "src/main.rs").write_text("#![allow(dead_code)]\n" + source)
    done = subprocess.run(["cargo", "build", "--release", "--offline", "--quiet"], cwd=folder, stdout=subprocess.PIPE,
                          stderr=subprocess.STDOUT, text=True)
    return folder / "target/release/peers" if done.returncode == 0 else None


def rust_peer(folder: pathlib.Path, name: str | None) -> Peer | None:
    program = cargo(folder / (name or "std"), name) if shutil.which("cargo") else None
    return (name or "std", {kind: [program, "MEASURE", kind, "ROUNDS"] for kind in KINDS}) if program else None


def c_peer(folder: pathlib.Path, name: str) -> Peer | None:
    compiler = shutil.which("cc") or shutil.which("gcc") or shutil.which("clang")
    if not compiler:
        return None
    source, commands = folder / "queue.c", {}
    source.write_text(C)
    for kind in KINDS:
        program = folder / f"{name.replace(' ', '_')}_{kind}"
        flags = [*IN_C[name], *(["-DINLINE"] if kind == "inline" else [])]
        done = subprocess.run([compiler, "-O2", "-pthread", *flags, "-o", program, source], stderr=subprocess.PIPE)
        if done.returncode:
            return None
        commands[kind] = [program, "MEASURE", "ROUNDS"]
    return name, commands


def peers(folder: str) -> tuple[list[Peer], list[str]]:
    """The peers that can be built here, and the names of those that can't."""
    place = pathlib.Path(folder)
    tried = {name or "std": rust_peer(place, name) for name in (None, "crossbeam-channel", "flume")}
    tried |= {name: c_peer(place, name) for name in IN_C}
    return [it for it in tried.values() if it], [name for name, it in tried.items() if not it]


def command(peer: Peer, kind: str, measure: str, rounds: int) -> list:
    """What runs a measure of a peer for so many rounds, and prints nanoseconds a message."""
    return [{"MEASURE": measure, "ROUNDS": str(rounds)}.get(it, it) if isinstance(it, str) else it for it in peer[1][kind]]
