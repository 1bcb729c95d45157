//! Work on many inputs at once, with the results in the order of the inputs.

use crate::system;
use std::collections::BTreeMap;
use std::io;
use std::sync::{Condvar, Mutex, MutexGuard, PoisonError};
use std::thread;

/// Results that may wait for an earlier one, for each job. It bounds the memory when one input takes long.
const AHEAD: usize = 64;

/// The stack of a thread: the most that a call may take, and index takes about half of it (docs/OPERATING.md).
const STACK: usize = 512 << 10;

/// More than the work on one input takes.
const MEMORY: usize = 4 << 20;

struct State<T> {
    /// The next input to work on, and the next result to hand over.
    next: usize,
    due: usize,
    done: BTreeMap<usize, T>,
    /// Set when no more results are wanted.
    stopped: bool,
}

struct Shared<T> {
    state: Mutex<State<T>>,
    /// A result is there; there is room for more results.
    ready: Condvar,
    room: Condvar,
}

impl<T> Shared<T> {
    fn lock(&self) -> MutexGuard<'_, State<T>> {
        self.state.lock().unwrap_or_else(PoisonError::into_inner)
    }

    /// The next input to work on, when there is room for its result.
    fn next(&self, ahead: usize, count: usize) -> Option<usize> {
        let full = |state: &mut State<T>| !state.stopped && state.next < count && state.next > state.due + ahead;
        let mut state = self.room.wait_while(self.lock(), full).unwrap_or_else(PoisonError::into_inner);
        if state.stopped || state.next >= count {
            return None;
        }
        state.next += 1;
        Some(state.next - 1)
    }

    /// The result of an input, when it is done.
    fn result(&self, at: usize) -> T {
        let mut state = self.lock();
        loop {
            if let Some(result) = state.done.remove(&at) {
                state.due = at + 1;
                self.room.notify_all();
                return result;
            }
            state = self.ready.wait(state).unwrap_or_else(PoisonError::into_inner);
        }
    }
}

/// Does `work` on the inputs in up to `jobs` threads and hands each result to `each`, in order. Stops at the first error of
/// `each`. Where threads can't be started it goes on with those that are there, or without any.
pub fn run<I: Sync, T: Send>(
    jobs: usize,
    inputs: &[I],
    work: impl Fn(&I) -> T + Sync,
    mut each: impl FnMut(usize, T) -> io::Result<()>,
) -> io::Result<()> {
    if jobs.min(inputs.len()) < 2 {
        return (0..).zip(inputs).try_for_each(|(at, input)| each(at, work(input)));
    }
    let state = Mutex::new(State { next: 0, due: 0, done: BTreeMap::new(), stopped: false });
    let shared = Shared { state, ready: Condvar::new(), room: Condvar::new() };
    let worker = || {
        while let Some((at, input)) = shared.next(AHEAD * jobs, inputs.len()).and_then(|at| Some((at, inputs.get(at)?))) {
            let result = work(input);
            shared.lock().done.insert(at, result);
            shared.ready.notify_one();
        }
    };
    thread::scope(|scope| {
        let threads = start(scope, jobs.min(inputs.len()), &worker);
        let told = (0..).zip(inputs).try_for_each(|(at, input)| {
            let result = if threads > 0 { shared.result(at) } else { work(input) };
            each(at, result)
        });
        shared.lock().stopped = true;
        shared.room.notify_all();
        told
    })
}

/// Starts threads, and answers how many.
fn start<'scope>(scope: &'scope thread::Scope<'scope, '_>, jobs: usize, worker: &'scope (impl Fn() + Sync)) -> usize {
    let start_one = || thread::Builder::new().stack_size(STACK).spawn_scoped(scope, worker).is_ok();
    (1..=jobs).take_while(|&count| has_memory(count) && start_one()).count()
}

/// Whether there is memory for so many threads' work: their stacks must not take it.
fn has_memory(threads: usize) -> bool {
    let mut memory: Vec<u8> = Vec::new();
    system::may_fail(|| memory.try_reserve_exact(MEMORY.saturating_mul(threads)).is_ok())
}

#[cfg(test)]
mod tests {
    use super::*;
    use std::time::Duration;

    #[test]
    fn results_come_in_order() {
        for jobs in [1, 2, 7] {
            let mut seen = Vec::new();
            let work = |&at: &usize| {
                if at % 97 == 0 {
                    thread::sleep(Duration::from_millis(3));
                }
                at * at
            };
            let inputs: Vec<usize> = (0..1_000).collect();
            run(jobs, &inputs, work, |at, square| {
                seen.push((at, square));
                Ok(())
            })
            .expect("nothing fails");
            assert!(seen.iter().copied().eq((0..1_000).map(|at| (at, at * at))));
        }
        assert!(run(4, &[(); 0], |_| (), |_, ()| Ok(())).is_ok());
    }

    #[test]
    fn an_error_ends_the_run() {
        let mut handed = 0;
        let result = run(
            3,
            &[(); 100_000],
            |_| (),
            |at, ()| {
                handed += 1;
                if at == 10 {
                    Err(io::ErrorKind::BrokenPipe.into())
                } else {
                    Ok(())
                }
            },
        );
        assert!(result.is_err() && handed == 11);
    }
}
