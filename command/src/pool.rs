//! Parts worked on by all cores, their results taken in order.
use crate::error::{Error, Result};
use std::collections::BTreeMap;
use std::panic::{catch_unwind, AssertUnwindSafe};
use std::sync::mpsc;

/// What a call needs of a thread's stack (CORRECTOR_STACK of corrector.h), and what this program's own frames take.
const STACK: usize = 1_572_864 + (1 << 20);

/// Works on each item, and takes the results in the items' order. The first error ends it; items before that one are taken.
pub fn in_order<T: Send, R: Send>(
    threads: usize,
    items: &mut dyn Iterator<Item = Result<T>>,
    work: impl Fn(T) -> Result<R> + Sync,
    mut take: impl FnMut(R) -> Result<()>,
) -> Result<()> {
    let pool = rayon::ThreadPoolBuilder::new().num_threads(threads).stack_size(STACK).build();
    let pool = pool.map_err(|error| Error::Failed(format!("cannot start {threads} threads: {error}")))?;
    // As many are under way as keep the threads busy while one of them takes long.
    let most = threads * 4;
    let (send, receive) = mpsc::channel();
    let work = &work;
    pool.in_place_scope(|scope| {
        let mut done: BTreeMap<usize, Result<R>> = BTreeMap::new();
        let (mut started, mut taken, mut ended) = (0, 0, false);
        loop {
            while !ended && started - taken < most {
                match items.next() {
                    Some(Ok(item)) => {
                        let send = send.clone();
                        scope.spawn(move |_| {
                            let result = catch_unwind(AssertUnwindSafe(|| work(item)));
                            let result = result.unwrap_or_else(|_| Err(Error::Failed("a thread has failed".into())));
                            // Nobody listens any more where another part has failed.
                            let _ = send.send((started, result));
                        });
                    }
                    Some(Err(error)) => {
                        done.insert(started, Err(error));
                        ended = true;
                    }
                    None => {
                        ended = true;
                        break;
                    }
                }
                started += 1;
            }
            if taken == started {
                return Ok(());
            }
            while !done.contains_key(&taken) {
                match receive.recv() {
                    Ok((number, result)) => done.insert(number, result),
                    Err(_) => return Err(Error::Failed("a thread has ended early".into())),
                };
            }
            while let Some(result) = done.remove(&taken) {
                take(result?)?;
                taken += 1;
            }
        }
    })
}

/// As many threads as asked for, else as there are cores.
pub fn threads(asked: Option<usize>) -> usize {
    asked.unwrap_or_else(|| std::thread::available_parallelism().map_or(1, |cores| cores.get()))
}

#[cfg(test)]
mod tests {
    use super::*;

    #[test]
    fn stack_as_the_header_asks() {
        let header = include_str!("../../crates/exports/corrector.h");
        let asked = header.split("CORRECTOR_STACK = ").nth(1).and_then(|rest| rest.split(' ').next()).unwrap();
        assert_eq!(STACK, asked.parse::<usize>().unwrap() + (1 << 20));
    }

    #[test]
    fn order_and_first_error() {
        let mut taken = Vec::new();
        in_order(3, &mut (0..1000).map(Ok::<u64, Error>), |n| Ok(n * 2), |n| Ok(taken.push(n))).unwrap();
        assert_eq!(taken, (0..1000).map(|n| n * 2).collect::<Vec<_>>());
        let mut taken = Vec::new();
        let work = |n: u64| if n % 10 == 7 { Err(Error::Failed(n.to_string())) } else { Ok(n) };
        let error = in_order(3, &mut (0..1000).map(Ok::<u64, Error>), work, |n| Ok(taken.push(n))).unwrap_err();
        assert_eq!((error.to_string().as_str(), taken.len()), ("7", 7));
    }
}
