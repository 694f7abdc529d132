//! The rounds of `lock_bench` in plain Rust: sixteen mutexes, which a thread that holds something only tries.
use std::sync::atomic::{AtomicU64, Ordering};
use std::sync::{Mutex, MutexGuard, TryLockError};
use std::time::Duration;
use std::{env, thread};

#[derive(Clone, Copy)]
enum Pause {
    Nothing,
    Yield,
    Sleep,
}

struct Board {
    tickets: AtomicU64,
    values: Vec<Mutex<u64>>,
}

struct Acquire<'a> {
    ticket: u64,
    held: Vec<(u32, MutexGuard<'a, u64>)>,
}

fn order_of(count: u32, seed: u64) -> Vec<u32> {
    let mut order: Vec<u32> = (0..count).collect();
    let mut state = seed;
    for last in 1..order.len() {
        state = state.wrapping_mul(6364136223846793005).wrapping_add(1442695040888963407);
        order.swap((state >> 33) as usize % (last + 1), last);
    }
    order
}

// Locks each buffer of the order that is not held yet, or answers the one for which the caller has to back off.
fn lock_others<'a>(board: &'a Board, acquire: &mut Acquire<'a>, order: &[u32]) -> Option<u32> {
    for &buffer in order {
        if acquire.held.iter().any(|(held, _)| *held == buffer) {
            continue;
        }
        let value = &board.values[buffer as usize];
        let guard = if acquire.held.is_empty() {
            value.lock().unwrap()
        } else {
            match value.try_lock() {
                Ok(guard) => guard,
                Err(TryLockError::WouldBlock) => return Some(buffer),
                Err(TryLockError::Poisoned(_)) => unreachable!(),
            }
        };
        acquire.held.push((buffer, guard));
    }
    None
}

fn release_all(acquire: &mut Acquire) {
    while !acquire.held.is_empty() {
        drop(acquire.held.remove(0));
    }
}

// Locks all of the order, and begins anew with the one for which it had to back off.
fn lock_all<'a>(board: &'a Board, acquire: &mut Acquire<'a>, order: &[u32]) {
    while let Some(contended) = lock_others(board, acquire, order) {
        release_all(acquire);
        thread::yield_now();
        let guard = board.values[contended as usize].lock().unwrap();
        acquire.held.push((contended, guard));
    }
}

fn round(board: &Board, order: &[u32], pause: Pause) -> u64 {
    let ticket = board.tickets.fetch_add(1, Ordering::SeqCst);
    let mut acquire = Acquire { ticket, held: Vec::with_capacity(board.values.len()) };
    lock_all(board, &mut acquire, order);
    for (_, value) in &mut acquire.held {
        **value = value.wrapping_add(1);
    }
    match pause {
        Pause::Nothing => {}
        Pause::Yield => thread::yield_now(),
        Pause::Sleep => thread::sleep(Duration::from_millis(1)),
    }
    release_all(&mut acquire);
    acquire.ticket
}

// How many rounds each thread makes.
fn shares_of(threads: u64, rounds: u64) -> Vec<u64> {
    let mut left = rounds;
    let share_of = |thread| {
        let share = left / (threads - thread);
        left -= share;
        share
    };
    (0..threads).map(share_of).collect()
}

fn sum_of_rounds(locks: u32, pause: Pause, threads: u64, rounds: u64) -> u64 {
    let values = (0..16).map(|_| Mutex::new(0)).collect();
    let board = Board { tickets: AtomicU64::new(1), values };
    thread::scope(|scope| {
        let board = &board;
        for (thread, share) in shares_of(threads, rounds).into_iter().enumerate() {
            scope.spawn(move || {
                let order = order_of(locks, thread as u64);
                for _ in 0..share {
                    round(board, &order, pause);
                }
            });
        }
    });
    board.values.into_iter().map(|value| value.into_inner().unwrap()).sum()
}

struct Engines {
    is_busy: Vec<bool>,
    reported: u64,
}

// Begins a packet on the engine, if it is there and idle.
fn begin_packet(engines: &Mutex<Engines>, engine: usize) -> bool {
    match engines.lock().unwrap().is_busy.get_mut(engine) {
        Some(is_busy) if !*is_busy => {
            *is_busy = true;
            true
        }
        _ => false,
    }
}

// Reports the packet that the thread began on the engine.
fn report_packet(engines: &Mutex<Engines>, engine: usize) {
    let mut engines = engines.lock().unwrap();
    engines.is_busy[engine] = false;
    engines.reported = engines.reported.wrapping_add(1);
}

fn sum_of_packets(threads: u64, rounds: u64) -> u64 {
    let engines = Mutex::new(Engines { is_busy: vec![false; threads as usize], reported: 0 });
    thread::scope(|scope| {
        let engines = &engines;
        for (thread, share) in shares_of(threads, rounds).into_iter().enumerate() {
            scope.spawn(move || {
                for _ in 0..share {
                    if begin_packet(engines, thread) {
                        report_packet(engines, thread);
                    }
                }
            });
        }
    });
    engines.into_inner().unwrap().reported
}

fn main() {
    for word in env::args().skip(1) {
        let parts: Vec<&str> = word.split(':').collect();
        let [kind, threads, rounds] = parts[..] else { continue };
        let threads = threads.parse().unwrap_or(1);
        let rounds = rounds.parse().unwrap_or(0);
        let sum = match kind {
            "one" => sum_of_rounds(1, Pause::Nothing, threads, rounds),
            "all" => sum_of_rounds(16, Pause::Nothing, threads, rounds),
            "yielding" => sum_of_rounds(16, Pause::Yield, threads, rounds),
            "sleeping" => sum_of_rounds(16, Pause::Sleep, threads, rounds),
            "packets" => sum_of_packets(threads, rounds),
            _ => continue,
        };
        println!("{kind} {sum}");
    }
}
