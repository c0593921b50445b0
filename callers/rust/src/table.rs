// SPDX-License-Identifier: BSD-3-Clause
//! What the nodes of a loop share: a lock for each, the turns that follow a call, and who sleeps.
//!
//! A cell is called only under its node's lock, and no thread holds two of these.
//!
//! **No parcel stays behind.** A turn that has become possible at a node was made so by a call on it, or by a turn of some node that has touched it: it sent that
//! node a message, or took one of it (`Cell::acts_touching`). After a call a node takes turns until it has none before the lock is given back; and after
//! turns of a node the thread that took them has each node that they touched do the same, and those that these touch (`Table::move_on`). A node whose turn was
//! refused is asked again in the next call that moves anything.
//!
//! **No thread sleeps on.** A parcel comes to a portal only by a call or a turn that is made under the node's lock. Who wants to wait looks under this lock,
//! finds nothing, and gives it back only by falling asleep, in the list of the node; whoever makes a later call or turn there gets the parcel for it
//! (`State::hand_out`). A task is woken by each later turn, and looks again itself.
use crate::{lasting_cells, Cell, Parcel, Portal as Name, Refused, Retry};
use std::sync::atomic::{AtomicU64, Ordering};
use std::sync::{Arc, Condvar, Mutex, MutexGuard, PoisonError};
use std::task::Waker;
use std::time::{Duration, Instant};

const TURNS: u64 = 1 << 10;
// A call takes no more looks at nodes than this: portals that chase each other in a circle don't hold it for ever.
const LOOKS: usize = 1 << 14;
// Once in so many calls on a node all nodes are asked, and the routers that were told that there is no slot ask again.
const RETRY: u32 = 256;

/// What a receive came to: at which place of the list of portals, and the parcel, or why none comes there; or why no portal has anything.
pub type Answer = Result<(usize, Result<Parcel, Refused>), Refused>;

/// A thread that sleeps.
struct Sleeper {
    id: u64,
    names: Vec<Name>,
    answer: Option<Answer>,
    wake: Arc<Condvar>,
}

/// What the lock of a node guards.
pub struct State {
    pub cell: Cell,
    sleepers: Vec<Sleeper>,
    tasks: Vec<Waker>,
    // Tasks to wake once the lock is given back, since nobody knows what a waker does.
    due: Vec<Waker>,
    next_id: u64,
    // How many calls it had.
    calls: u32,
    // Why a turn of some node was refused, if one was since this node took turns.
    refused: Option<Refused>,
    is_stopped: bool,
}

/// The nodes of a loop.
pub struct Table {
    nodes: Vec<Mutex<State>>,
    // Nodes that may still have turns, by their bits.
    left: AtomicU64,
}

impl State {
    /// What has come to the first of some portals that has something, or why nobody shall wait; `Empty` if neither.
    fn look(&mut self, names: &[Name]) -> Answer {
        for (i, name) in names.iter().enumerate() {
            match self.cell.get(*name) {
                Err(Refused::Empty) => {}
                other => return Ok((i, other)),
            }
        }
        match self.refused {
            _ if self.is_stopped => Err(Refused::Stopped),
            Some(why) => Err(why),
            None => Err(Refused::Empty),
        }
    }

    /// Gives each sleeper what has come for it, and wakes it; whether there was one.
    fn hand_out(&mut self) -> bool {
        let mut sleepers = std::mem::take(&mut self.sleepers);
        let mut has_given = false;
        for sleeper in sleepers.iter_mut().filter(|it| it.answer.is_none()) {
            let answer = self.look(&sleeper.names);
            if !matches!(answer, Err(Refused::Empty)) {
                sleeper.answer = Some(answer);
                sleeper.wake.notify_one();
                has_given = true;
            }
        }
        self.sleepers = sleepers;
        has_given
    }

    fn wake_tasks(&mut self) {
        self.due.append(&mut self.tasks);
    }

    /// Takes turns until the node has none, or one is refused; whether it had one. Adds the nodes that they touch. It may be asked to let routers that were told
    /// that there is no slot for their shorter way ask again.
    fn take_turns(&mut self, retries: bool, touched: &mut u64) -> bool {
        let mut had_turn = false;
        loop {
            let acts = self.cell.acts_touching(TURNS, touched);
            // (of acts that were refused those before stand)
            had_turn = had_turn || acts != Ok(0);
            let again = acts.is_ok() && retries && self.cell.retry() == Retry::Again;
            if matches!(acts, Err(Refused::Raced) | Ok(TURNS)) || again {
                continue;
            }
            self.refused = acts.err();
            return had_turn;
        }
    }

    /// Whether it is time to ask all nodes.
    fn retries(&mut self) -> bool {
        self.calls = self.calls.wrapping_add(1);
        self.calls % RETRY == 1
    }

    /// Takes turns, and hands out what has come.
    fn turns(&mut self, was_called: bool, retries: bool, touched: &mut u64) -> bool {
        let mut had_turn = false;
        loop {
            had_turn = self.take_turns(retries, touched) || had_turn;
            if had_turn {
                self.wake_tasks();
            }
            let has_given = (had_turn || was_called) && self.hand_out();
            if !has_given || self.refused.is_some() {
                return had_turn;
            }
        }
    }

    fn has_answer(&self, id: u64) -> bool {
        self.sleepers
            .iter()
            .any(|it| it.id == id && it.answer.is_some())
    }
}

impl Table {
    pub fn new(nodes: u8, slots: u32) -> Result<Table, Refused> {
        let cells = lasting_cells(usize::from(nodes), slots)?;
        let nodes = cells.into_iter().map(|cell| {
            Mutex::new(State {
                cell,
                sleepers: Vec::new(),
                tasks: Vec::new(),
                due: Vec::new(),
                next_id: 0,
                calls: 0,
                refused: None,
                is_stopped: false,
            })
        });
        Ok(Table {
            nodes: nodes.collect(),
            left: AtomicU64::new(0),
        })
    }

    pub fn nodes(&self) -> u8 {
        self.nodes.len() as u8
    }

    fn lock(&self, node: u8) -> MutexGuard<'_, State> {
        let lock = self.nodes[usize::from(node)].lock();
        lock.unwrap_or_else(PoisonError::into_inner)
    }

    /// Makes a call on a node, and takes the turns that follow it.
    pub fn call<T>(&self, node: u8, call: impl FnOnce(&mut Cell) -> T) -> T {
        let mut state = self.lock(node);
        let answer = call(&mut state.cell);
        self.end_call(node, state);
        answer
    }

    /// Looks at a node, and changes nothing.
    pub fn look_at<T>(&self, node: u8, look: impl FnOnce(&mut Cell) -> T) -> T {
        let mut state = self.begin_look(node);
        let told = look(&mut state.cell);
        release(state);
        told
    }

    fn end_call(&self, node: u8, mut state: MutexGuard<'_, State>) {
        let retries = state.retries();
        let mut touched = 0;
        let had_turn = state.turns(true, retries, &mut touched);
        let refused = state.refused;
        release(state);
        if retries {
            touched = self.all();
        }
        if had_turn || retries {
            self.move_on(node, touched, retries, refused);
        }
    }

    /// The bits of all nodes.
    fn all(&self) -> u64 {
        u64::MAX >> (64 - self.nodes())
    }

    /// Nodes that may still have turns, from earlier calls: they are asked now.
    fn take_left(&self) -> u64 {
        match self.left.load(Ordering::Relaxed) {
            0 => 0,
            _ => self.left.swap(0, Ordering::Relaxed),
        }
    }

    /// After turns of a node: has the nodes that are asked take theirs, and those that these touch, until there is none left to ask.
    fn move_on(&self, from: u8, asked: u64, retries: bool, mut refused: Option<Refused>) {
        let mut left = if refused.is_some() { 1 << from } else { 0 };
        let mut asked = asked & !(1 << from) | self.take_left();
        let mut node = from;
        for _look in 0..LOOKS {
            if asked == 0 {
                break;
            }
            node = first_behind(asked, node);
            let mut state = self.lock(node);
            state.turns(false, retries, &mut asked);
            if state.refused.is_some() {
                refused = state.refused;
                left |= 1 << node;
            }
            release(state);
            asked &= !(1 << node);
        }
        left |= asked;
        if left != 0 {
            self.left.fetch_or(left, Ordering::Relaxed);
        }
        if refused.is_some() {
            self.for_each(|state| state.refused = refused);
        }
    }

    /// Changes each node, and tells whoever sleeps there.
    fn for_each(&self, change: impl Fn(&mut State)) {
        for node in 0..self.nodes() {
            let mut state = self.lock(node);
            change(&mut state);
            state.wake_tasks();
            state.hand_out();
            release(state);
        }
    }

    pub fn stop(&self) {
        self.for_each(|state| state.is_stopped = true);
    }

    /// Takes the lock before a look. If a turn of any node was refused, all take turns first.
    fn begin_look(&self, node: u8) -> MutexGuard<'_, State> {
        let mut state = self.lock(node);
        if state.refused.is_none() {
            return state;
        }
        state.turns(false, false, &mut 0);
        let refused = state.refused;
        release(state);
        self.move_on(node, self.all(), false, refused);
        self.lock(node)
    }

    /// The next parcel at some portals of a node. If there is none: waits until there is one, or until a moment, if one is given.
    pub fn receive(&self, node: u8, names: &[Name], until: Until) -> Answer {
        let mut state = self.begin_look(node);
        let answer = state.look(names);
        match (answer, until) {
            (Ok(answer), _) => {
                self.end_call(node, state);
                Ok(answer)
            }
            (Err(Refused::Empty), Until::Moment(moment)) => sleep(state, names, Some(moment)),
            (Err(Refused::Empty), Until::Forever) => sleep(state, names, None),
            (Err(Refused::Empty), Until::Woken(task)) => {
                if !state.tasks.iter().any(|it| it.will_wake(task)) {
                    state.tasks.push(task.clone());
                }
                Err(Refused::Empty)
            }
            (answer, _) => answer,
        }
    }
}

/// The first node of a set behind another, going round. The set has one.
fn first_behind(set: u64, node: u8) -> u8 {
    let later = set & !(u64::MAX >> (63 - node));
    let from = if later == 0 { set } else { later };
    from.trailing_zeros() as u8
}

/// Gives a lock back, and wakes the tasks that are to be woken.
fn release(mut state: MutexGuard<'_, State>) {
    let due = std::mem::take(&mut state.due);
    drop(state);
    for task in due {
        task.wake();
    }
}

/// How long a receive waits.
pub enum Until<'a> {
    Now,
    Moment(Instant),
    Forever,
    /// It doesn't wait, but has a task woken.
    Woken(&'a Waker),
}

/// When a time from now has passed; forever, if no clock can tell.
pub fn after(timeout: Duration) -> Until<'static> {
    match Instant::now().checked_add(timeout) {
        Some(moment) => Until::Moment(moment),
        None => Until::Forever,
    }
}

/// Sleeps until there is an answer, or the moment has come. The lock is given back only in sleep.
fn sleep(mut state: MutexGuard<'_, State>, names: &[Name], until: Option<Instant>) -> Answer {
    let (id, wake) = (state.next_id, Arc::new(Condvar::new()));
    state.next_id += 1;
    state.sleepers.push(Sleeper {
        id,
        names: names.to_vec(),
        answer: None,
        wake: Arc::clone(&wake),
    });
    while !state.has_answer(id) {
        let left = until.map(|until| until.saturating_duration_since(Instant::now()));
        state = match left {
            Some(Duration::ZERO) => break,
            Some(left) => {
                let woken = wake.wait_timeout(state, left);
                woken.unwrap_or_else(PoisonError::into_inner).0
            }
            None => wake.wait(state).unwrap_or_else(PoisonError::into_inner),
        };
    }
    let place = state.sleepers.iter().position(|it| it.id == id);
    let me = place.map(|place| state.sleepers.remove(place));
    me.and_then(|me| me.answer).unwrap_or(Err(Refused::Empty))
}
