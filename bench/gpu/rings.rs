//! What several rings can gain behind one lock: threads that each double the 4,096 bytes of a buffer of their own, outside a
//! lock that they enter twice for each packet (take the buffer, give it back), or once (give back and take at once), or
//! that each ring has for itself. The lock is a `Mutex`, or a word that is tried until it is free.
use std::cell::UnsafeCell;
use std::hint::{black_box, spin_loop};
use std::sync::atomic::{AtomicBool, Ordering};
use std::sync::Mutex;
use std::thread;
use std::time::{Duration, Instant};

const SIZE: usize = 4096;
const ROUNDS: usize = 100_000;

#[derive(Default)]
struct Ring {
    bytes: Option<Vec<u8>>,
    ran: usize,
}

trait Lock: Sync {
    fn with<T>(&self, work: impl FnOnce(&mut Vec<Ring>) -> T) -> T;
}

impl Lock for Mutex<Vec<Ring>> {
    fn with<T>(&self, work: impl FnOnce(&mut Vec<Ring>) -> T) -> T {
        work(&mut self.lock().unwrap())
    }
}

struct Word {
    taken: AtomicBool,
    rings: UnsafeCell<Vec<Ring>>,
}

unsafe impl Sync for Word {}

impl Lock for Word {
    fn with<T>(&self, work: impl FnOnce(&mut Vec<Ring>) -> T) -> T {
        while self.taken.swap(true, Ordering::Acquire) {
            while self.taken.load(Ordering::Relaxed) {
                spin_loop();
            }
        }
        let answer = work(unsafe { &mut *self.rings.get() });
        self.taken.store(false, Ordering::Release);
        answer
    }
}

fn run(bytes: &mut [u8]) {
    bytes.iter_mut().for_each(|byte| *byte = byte.wrapping_add(*byte | 1));
    black_box(bytes);
}

fn take(rings: &mut [Ring], ring: usize) -> Vec<u8> {
    rings[ring].bytes.take().unwrap()
}

fn give(rings: &mut [Ring], ring: usize, bytes: Vec<u8>) {
    rings[ring].bytes = Some(bytes);
    rings[ring].ran += 1;
}

fn twice(lock: &impl Lock, ring: usize) {
    for _ in 0..ROUNDS {
        let mut bytes = lock.with(|rings| take(rings, ring));
        run(&mut bytes);
        lock.with(|rings| give(rings, ring, bytes));
    }
}

fn once(lock: &impl Lock, ring: usize) {
    let mut bytes = lock.with(|rings| take(rings, ring));
    for _ in 1..ROUNDS {
        run(&mut bytes);
        bytes = lock.with(|rings| {
            give(rings, ring, bytes);
            take(rings, ring)
        });
    }
    run(&mut bytes);
    lock.with(|rings| give(rings, ring, bytes));
}

fn rings(count: usize) -> Vec<Ring> {
    (0..count).map(|_| Ring { bytes: Some(vec![1; SIZE]), ran: 0 }).collect()
}

fn time(count: usize, work: impl Fn(usize) + Sync) -> Duration {
    let start = Instant::now();
    thread::scope(|scope| {
        for ring in 0..count {
            let work = &work;
            scope.spawn(move || work(ring));
        }
    });
    start.elapsed()
}

/// A lock on cache lines of its own.
#[repr(align(128))]
struct Apart<L>(L);

fn mutex(count: usize) -> Mutex<Vec<Ring>> {
    Mutex::new(rings(count))
}

fn word(count: usize) -> Word {
    Word { taken: AtomicBool::new(false), rings: UnsafeCell::new(rings(count)) }
}

fn least(count: usize, form: &str) -> f64 {
    (0..9)
        .map(|_| match form {
            "mutex, twice" => { let lock = mutex(count); time(count, |ring| twice(&lock, ring)) }
            "mutex, once" => { let lock = mutex(count); time(count, |ring| once(&lock, ring)) }
            "word, twice" => { let lock = word(count); time(count, |ring| twice(&lock, ring)) }
            "word, once" => { let lock = word(count); time(count, |ring| once(&lock, ring)) }
            "a mutex each, twice" => { let locks: Vec<_> = (0..count).map(|_| Apart(mutex(1))).collect(); time(count, |ring| twice(&locks[ring].0, 0)) }
            _ => unreachable!(),
        })
        .min()
        .unwrap()
        .as_nanos() as f64 / (ROUNDS * count) as f64
}

fn main() {
    for form in ["mutex, twice", "mutex, once", "word, twice", "word, once", "a mutex each, twice"] {
        let one = least(1, form);
        print!("{form:22} {one:6.0}");
        for count in [2, 4, 8] {
            let ns = least(count, form);
            print!("   {count}: {ns:6.0} = {:.2} k", one / ns / count as f64);
        }
        println!();
    }
}
