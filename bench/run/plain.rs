//! `drmsim run` in plain Rust: threads over one mutex round the whole device, packets and all. It reads a script for threads,
//! runs its jobs by so many submitters, a scheduler and a worker for each ring, and writes a journal. It looks for no fault.
use std::collections::VecDeque;
use std::fmt::Write as _;
use std::io::{Read, Write};
use std::sync::Mutex;
use std::{env, io, thread};

enum Packet {
    Fill { buffer: usize, at: usize, len: usize, byte: u8 },
    Copy { from: usize, at: usize, to: usize, place: usize, len: usize },
    Add { from: usize, at: usize, to: usize, place: usize, len: usize },
}

struct Job<'a> {
    words: &'a str,
    entity: usize,
    credits: u32,
    declared: Vec<(bool, usize)>,
    packets: Vec<Packet>,
}

struct Record {
    job: usize,
    deps: Vec<usize>,
    has_ended: bool,
}

/// Who uses a buffer: its last writer, and those who have read it since.
#[derive(Default)]
struct Resv {
    writer: Option<usize>,
    readers: Vec<usize>,
}

struct Ring {
    limit: u32,
    credits: u32,
    entities: Vec<usize>,
    pending: VecDeque<usize>,
}

struct Device {
    journal: Vec<Record>,
    queues: Vec<VecDeque<usize>>,
    rings: Vec<Ring>,
    resvs: Vec<Resv>,
    buffers: Vec<Vec<u8>>,
    ended: usize,
}

fn number(text: &str) -> usize {
    text.parse().unwrap()
}

fn packet(word: &str) -> Packet {
    let mut parts = word.split(':');
    let name = parts.next().unwrap();
    let rest: Vec<&str> = parts.collect();
    let it = |place: usize| number(rest[place]);
    match name {
        "fill" => Packet::Fill { buffer: it(0), at: it(1), len: it(2), byte: u8::from_str_radix(rest[3], 16).unwrap() },
        "copy" => Packet::Copy { from: it(0), at: it(1), to: it(2), place: it(3), len: it(4) },
        _ => Packet::Add { from: it(0), at: it(1), to: it(2), place: it(3), len: it(4) },
    }
}

fn job(words: &str) -> Job<'_> {
    let mut rest = words.split(' ');
    let (entity, credits) = (number(rest.next().unwrap()), number(rest.next().unwrap()) as u32);
    let (packets, declared): (Vec<&str>, Vec<&str>) = rest.partition(|word| word.contains(':'));
    Job {
        words,
        entity,
        credits,
        declared: declared.iter().map(|word| (word.starts_with('w'), number(&word[1..]))).collect(),
        packets: packets.iter().map(|word| packet(word)).collect(),
    }
}

impl Packet {
    fn run(&self, buffers: &mut [Vec<u8>]) {
        match *self {
            Packet::Fill { buffer, at, len, byte } => buffers[buffer][at..at + len].fill(byte),
            Packet::Copy { from, at, to, place, len } => {
                let bytes = buffers[from][at..at + len].to_vec();
                buffers[to][place..place + len].copy_from_slice(&bytes);
            }
            Packet::Add { from, at, to, place, len } => {
                let bytes = buffers[from][at..at + len].to_vec();
                for (to, from) in buffers[to][place..place + len].iter_mut().zip(bytes) {
                    *to = to.wrapping_add(from);
                }
            }
        }
    }
}

impl Device {
    fn arm(&mut self, number: usize, job: &Job) {
        let fence = self.journal.len();
        let mut deps = Vec::new();
        for &(writes, buffer) in &job.declared {
            let resv = &mut self.resvs[buffer];
            deps.extend(resv.writer);
            if writes {
                deps.append(&mut resv.readers);
                resv.writer = Some(fence);
            } else {
                resv.readers.push(fence);
            }
        }
        deps.retain(|&dep| !self.journal[dep].has_ended);
        self.journal.push(Record { job: number, deps, has_ended: false });
        self.queues[job.entity].push_back(fence);
    }

    fn pick(&mut self, ring: usize, jobs: &[Job]) -> bool {
        let is_ready = |&entity: &usize| {
            let fence = *self.queues[entity].front()?;
            let record = &self.journal[fence];
            let fits = self.rings[ring].credits + jobs[record.job].credits <= self.rings[ring].limit;
            (fits && record.deps.iter().all(|&dep| self.journal[dep].has_ended)).then_some((fence, entity))
        };
        let Some((fence, entity)) = self.rings[ring].entities.iter().filter_map(is_ready).min() else { return false };
        self.queues[entity].pop_front();
        self.rings[ring].credits += jobs[self.journal[fence].job].credits;
        self.rings[ring].pending.push_back(fence);
        true
    }

    fn run(&mut self, ring: usize, jobs: &[Job]) -> bool {
        let Some(fence) = self.rings[ring].pending.pop_front() else { return false };
        let job = &jobs[self.journal[fence].job];
        for packet in &job.packets {
            packet.run(&mut self.buffers);
        }
        self.rings[ring].credits -= job.credits;
        self.journal[fence].has_ended = true;
        self.ended += 1;
        true
    }
}

fn read_header(header: &str) -> Device {
    let (mut buffers, mut rings, mut queues) = (Vec::new(), Vec::new(), Vec::new());
    for line in header.lines() {
        let words: Vec<&str> = line.split(' ').collect();
        match words[0] {
            "zero" => buffers.push(vec![0; number(words[1])]),
            "buffer" => buffers.push((0..words[1].len() / 2).map(|it| u8::from_str_radix(&words[1][2 * it..2 * it + 2], 16).unwrap()).collect()),
            "ring" => rings.push(Ring { limit: number(words[1]) as u32, credits: 0, entities: Vec::new(), pending: VecDeque::new() }),
            "entity" => {
                rings[number(words[1])].entities.push(queues.len());
                queues.push(VecDeque::new());
            }
            _ => {}
        }
    }
    let resvs = buffers.iter().map(|_: &Vec<u8>| Resv::default()).collect();
    Device { journal: Vec::new(), queues, rings, resvs, buffers, ended: 0 }
}

fn drive(device: &Mutex<Device>, all: usize, turn: impl Fn(&mut Device) -> bool) {
    loop {
        let mut held = device.lock().unwrap();
        if held.ended == all {
            return;
        }
        if !turn(&mut held) {
            drop(held);
            thread::yield_now();
        }
    }
}

fn main() -> io::Result<()> {
    let submitters = number(&env::args().nth(1).unwrap());
    let mut text = String::new();
    io::stdin().read_to_string(&mut text)?;
    let (header, rest) = text.split_once("go\n").unwrap();
    let jobs: Vec<Job> = rest.lines().map(|line| job(line.strip_prefix("submit ").unwrap())).collect();
    let device = read_header(header);
    let rings = device.rings.len();
    let (device, jobs) = (&Mutex::new(device), &jobs);
    thread::scope(|scope| {
        for first in 0..submitters {
            scope.spawn(move || {
                for number in (first..jobs.len()).step_by(submitters) {
                    device.lock().unwrap().arm(number, &jobs[number]);
                }
            });
        }
        for ring in 0..rings {
            scope.spawn(move || drive(device, jobs.len(), |device| device.pick(ring, jobs)));
            scope.spawn(move || drive(device, jobs.len(), |device| device.run(ring, jobs)));
        }
    });
    let device = device.lock().unwrap();
    let mut out = format!("{header}go\n");
    for record in &device.journal {
        let job = &jobs[record.job];
        writeln!(out, "job {} 1 {}", job.packets.len(), job.words).unwrap();
    }
    for buffer in &device.buffers {
        out.push_str("final ");
        for byte in buffer {
            write!(out, "{byte:02x}").unwrap();
        }
        out.push('\n');
    }
    out.push_str("end\n");
    io::stdout().write_all(out.as_bytes())
}
