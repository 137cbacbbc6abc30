//! The inputs of a series over threads, with the outcome that one thread would have.

use super::series::Budget;
use std::sync::atomic::{AtomicU64, Ordering};
use std::time::Instant;
use std::{panic, thread};

/// A thread at the strips takes about 600 megabytes.
const MOST_THREADS: usize = 4;

/// What is said of every input before the first that fails, in their order, and that one's number
/// with what is said of it.
pub struct Said<T, E> {
    pub before: Vec<T>,
    pub failure: Option<(u64, E)>,
}

/// Asks of inputs 0, 1, .. until the budget is spent or one fails.
pub fn ask_all<T: Send, E: Send>(
    budget: Budget,
    ask: impl Fn(u64) -> Result<T, E> + Sync,
) -> Said<T, E> {
    let begun = Instant::now();
    let (next, first_failing) = (AtomicU64::new(0), AtomicU64::new(u64::MAX));
    let is_over =
        |input| budget.is_spent(input, begun) || input > first_failing.load(Ordering::Relaxed);
    // Inputs are taken in order, so that a thread's own first failure is its lowest, and whoever
    // takes one asks of it, so that none is left out before the last.
    let taken = || {
        let following = |input| (!is_over(input)).then_some(input + 1);
        next.fetch_update(Ordering::Relaxed, Ordering::Relaxed, following).ok()
    };
    let asked = || {
        let mut said = Vec::new();
        loop {
            let Some(input) = taken() else {
                return (said, None);
            };
            match ask(input) {
                Ok(answer) => said.push((input, answer)),
                Err(error) => {
                    first_failing.fetch_min(input, Ordering::Relaxed);
                    return (said, Some((input, error)));
                }
            }
        }
    };
    let threads = thread::available_parallelism().map_or(1, |count| count.get().min(MOST_THREADS));
    let parts: Vec<_> = thread::scope(|scope| {
        let asking: Vec<_> = (0..threads).map(|_| scope.spawn(asked)).collect();
        let joined = asking.into_iter().map(|thread| thread.join());
        joined.map(|part| part.unwrap_or_else(|panic| panic::resume_unwind(panic))).collect()
    });
    let (said, failures): (Vec<_>, Vec<_>) = parts.into_iter().unzip();
    let failure = failures.into_iter().flatten().min_by_key(|(input, _)| *input);
    let end = failure.as_ref().map_or(u64::MAX, |(input, _)| *input);
    let mut before: Vec<(u64, T)> =
        said.into_iter().flatten().filter(|(input, _)| *input < end).collect();
    before.sort_unstable_by_key(|(input, _)| *input);
    Said { before: before.into_iter().map(|(_, answer)| answer).collect(), failure }
}

#[cfg(test)]
mod tests {
    use super::*;
    use std::time::Duration;

    #[test]
    fn every_input_once_and_in_order() {
        let said = ask_all(Budget::Inputs(1_000), Ok::<u64, ()>);
        assert_eq!(said.before, (0..1_000).collect::<Vec<u64>>());
        assert_eq!(said.failure, None);
    }

    /// Wherever the time is over.
    #[test]
    fn none_is_left_out() {
        for _ in 0..200 {
            let said = ask_all(Budget::Time(Duration::from_micros(500)), Ok::<u64, ()>);
            assert_eq!(said.before, (0..said.before.len() as u64).collect::<Vec<u64>>());
        }
    }

    /// Inputs 40 and 41 fail, and 40 takes longer, so that another thread may go past it.
    #[test]
    fn the_first_failure_and_what_is_before_it() {
        let ask = |input: u64| {
            if input == 40 {
                thread::sleep(Duration::from_millis(50));
            }
            if input == 40 || input == 41 { Err(input) } else { Ok(input) }
        };
        let said = ask_all(Budget::Inputs(1_000), ask);
        assert_eq!(said.before, (0..40).collect::<Vec<u64>>());
        assert_eq!(said.failure, Some((40, 40)));
    }
}
