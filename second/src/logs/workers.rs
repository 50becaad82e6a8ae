//! Logs by their numbers, on all processors.

use std::sync::Mutex;
use std::thread;

/// Does this for each number below `count`, in turn, until one fails: what each processor gathered, from nothing on, or
/// that failure.
pub fn on_all<T: Send, E: Send>(
    count: usize,
    nothing: impl Fn() -> T + Sync,
    each: impl Fn(usize, &mut T) -> Result<(), E> + Sync,
) -> Result<Vec<T>, E> {
    let numbers = Mutex::new(0..count);
    let run = || {
        let mut gathered = nothing();
        loop {
            let Some(number) = numbers.lock().expect("no panic").next() else { return Ok(gathered) };
            if let Err(failure) = each(number, &mut gathered) {
                *numbers.lock().expect("no panic") = 0..0;
                return Err(failure);
            }
        }
    };
    let workers = thread::available_parallelism().map_or(1, usize::from);
    thread::scope(|scope| {
        let workers: Vec<_> = (0..workers).map(|_| scope.spawn(run)).collect();
        workers.into_iter().map(|worker| worker.join().expect("no panic")).collect()
    })
}
