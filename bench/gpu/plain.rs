//! The rounds of `gpu_bench` in plain Rust: one mutex round the device, one round the reservation of each buffer, and an
//! atomic word for each fence.
use std::collections::VecDeque;
use std::sync::atomic::{AtomicU64, Ordering};
use std::sync::{Mutex, MutexGuard};
use std::time::{Duration, Instant};
use std::{env, thread};

const RINGS: usize = 8;
const SIZE: usize = 4096;
const CREDITS: u32 = 65_535;

#[derive(Clone, Copy)]
enum Packet {
    Fill { buffer: usize, len: usize, byte: u8 },
    Add { buffer: usize, len: usize },
}

impl Packet {
    fn buffer(&self) -> usize {
        match *self {
            Packet::Fill { buffer, .. } | Packet::Add { buffer, .. } => buffer,
        }
    }

    fn run(&self, bytes: &mut [u8]) {
        match *self {
            Packet::Fill { len, byte, .. } => bytes[..len].fill(byte),
            Packet::Add { len, .. } => bytes[..len].iter_mut().for_each(|byte| *byte = byte.wrapping_add(*byte)),
        }
    }
}

struct Job {
    entity: usize,
    credits: u32,
    declared: Vec<usize>,
    packets: Vec<Packet>,
}

struct Record {
    job: Job,
    ring: usize,
    /// The fences of other entities that it waits for.
    deps: Vec<usize>,
    ran: usize,
    has_ended: bool,
}

#[derive(Default)]
struct Ring {
    pending: VecDeque<usize>,
    /// How many of the pending jobs have no packets left.
    complete: usize,
    credits: u32,
}

struct Device {
    journal: Vec<Record>,
    /// The jobs of each entity that no ring has taken. Each entity feeds the ring of its number.
    queues: Vec<VecDeque<usize>>,
    rings: Vec<Ring>,
    buffers: Vec<Option<Vec<u8>>>,
}

/// The last writer of a buffer of each entity.
type Resv = Vec<(usize, usize)>;

struct Gpu {
    device: Mutex<Device>,
    resvs: Vec<Mutex<Resv>>,
    words: Vec<AtomicU64>,
    max_jobs: usize,
}

impl Device {
    fn is_ready(&self, fence: usize) -> bool {
        let record = &self.journal[fence];
        let ring = &self.rings[record.ring];
        ring.credits + record.job.credits <= CREDITS && record.deps.iter().all(|&dep| self.journal[dep].has_ended)
    }

    // The first packet of the ring that has not run, with its job.
    fn next_packet(&self, ring: usize) -> Option<(usize, Packet)> {
        let ring = &self.rings[ring];
        let &fence = ring.pending.get(ring.complete)?;
        let record = &self.journal[fence];
        Some((fence, record.job.packets[record.ran]))
    }

    fn report(&mut self, ring: usize, fence: usize) {
        let record = &mut self.journal[fence];
        record.ran += 1;
        if record.ran == record.job.packets.len() {
            self.rings[ring].complete += 1;
        }
    }
}

impl Gpu {
    fn build(max_jobs: usize) -> Gpu {
        Gpu {
            device: Mutex::new(Device {
                journal: Vec::with_capacity(max_jobs),
                queues: (0..RINGS).map(|_| VecDeque::with_capacity(max_jobs)).collect(),
                rings: (0..RINGS)
                    .map(|_| Ring { pending: VecDeque::with_capacity(CREDITS as usize), ..Ring::default() })
                    .collect(),
                buffers: (0..RINGS).map(|_| Some(vec![0; SIZE])).collect(),
            }),
            resvs: (0..RINGS).map(|_| Mutex::new(Vec::new())).collect(),
            words: (0..max_jobs).map(|_| AtomicU64::new(0)).collect(),
            max_jobs,
        }
    }

    // Locks the buffers of the job, arms it with what it waits for, and gives the buffers back.
    fn submit(&self, job: Job) -> Option<usize> {
        let mut held: Vec<MutexGuard<Resv>> = Vec::with_capacity(job.declared.len());
        for &buffer in &job.declared {
            held.push(self.resvs[buffer].lock().unwrap());
        }
        let entity = job.entity;
        let mut deps = Vec::new();
        for resv in &mut held {
            resv.reserve(1);
            deps.extend(resv.iter().filter(|(writer, _)| *writer != entity).map(|(_, fence)| *fence));
        }
        let mut device = self.device.lock().unwrap();
        let fence = device.journal.len();
        if fence == self.max_jobs {
            return None;
        }
        device.journal.push(Record { job, ring: entity, deps, ran: 0, has_ended: false });
        device.queues[entity].push_back(fence);
        self.words[fence].store(1, Ordering::Release);
        drop(device);
        for resv in &mut held {
            resv.clear();
            resv.push((entity, fence));
        }
        Some(fence)
    }

    // The ring takes the first of the jobs that are ready.
    fn pick(&self, ring: usize) -> Option<usize> {
        let mut device = self.device.lock().unwrap();
        let fronts = device.queues.iter().filter_map(|queue| queue.front().copied());
        let fence = fronts.filter(|&fence| device.journal[fence].ring == ring && device.is_ready(fence)).min()?;
        let Job { entity, credits, .. } = device.journal[fence].job;
        device.queues[entity].pop_front();
        device.rings[ring].pending.push_back(fence);
        device.rings[ring].credits += credits;
        Some(fence)
    }

    // Runs a packet under the mutex.
    fn step(&self, ring: usize) -> bool {
        let mut device = self.device.lock().unwrap();
        let Some((fence, packet)) = device.next_packet(ring) else { return false };
        let Some(bytes) = &mut device.buffers[packet.buffer()] else { return false };
        packet.run(bytes);
        device.report(ring, fence);
        true
    }

    // Runs a packet outside the mutex, with its buffer taken out of the device.
    fn step_outside(&self, ring: usize) -> bool {
        let mut device = self.device.lock().unwrap();
        let Some((fence, packet)) = device.next_packet(ring) else { return false };
        let Some(mut bytes) = device.buffers[packet.buffer()].take() else { return false };
        drop(device);
        packet.run(&mut bytes);
        let mut device = self.device.lock().unwrap();
        device.buffers[packet.buffer()] = Some(bytes);
        device.report(ring, fence);
        true
    }

    // Ends the head of the ring if it is complete.
    fn finish(&self, ring: usize) -> Option<usize> {
        let mut device = self.device.lock().unwrap();
        if device.rings[ring].complete == 0 {
            return None;
        }
        let fence = device.rings[ring].pending.pop_front()?;
        device.rings[ring].complete -= 1;
        device.rings[ring].credits -= device.journal[fence].job.credits;
        device.journal[fence].has_ended = true;
        self.words[fence].store(2, Ordering::Release);
        Some(fence)
    }

    fn status(&self, fence: usize) -> Option<i32> {
        match self.words.get(fence)?.load(Ordering::Acquire) {
            0 => None,
            1 => Some(0),
            2 => Some(1),
            3 => Some(-125),
            _ => Some(-3),
        }
    }
}

#[derive(Clone, Copy)]
struct Work {
    packets: usize,
    len: usize,
    adds: bool,
}

fn job_of(ring: usize, work: Work) -> Job {
    let packet_of = |place: usize| {
        if work.adds && place + 1 < work.packets {
            Packet::Add { buffer: ring, len: work.len }
        } else {
            Packet::Fill { buffer: ring, len: work.len, byte: ((ring + place) % 255 + 1) as u8 }
        }
    };
    Job { entity: ring, credits: 1, declared: vec![ring], packets: (0..work.packets).map(packet_of).collect() }
}

struct Worker {
    ring: usize,
    jobs: Vec<Job>,
    rounds: usize,
    sum: u64,
}

#[derive(Clone, Copy)]
enum Stage {
    Arm,
    Submit,
    Pick,
    Packets,
    PacketsUnder,
    Finish,
    Round,
    Status,
}

fn round(gpu: &Gpu, ring: usize) -> bool {
    gpu.pick(ring);
    gpu.step(ring);
    gpu.finish(ring).is_some()
}

fn work(gpu: &Gpu, worker: &mut Worker, stage: Stage) {
    let ring = worker.ring;
    let repeat = |call: &dyn Fn() -> bool| (0..worker.rounds).filter(|_| call()).count() as u64;
    worker.sum += match stage {
        Stage::Arm | Stage::Submit => {
            let runs = matches!(stage, Stage::Submit);
            let mut ran = 0;
            for job in std::mem::take(&mut worker.jobs) {
                gpu.submit(job);
                ran += u64::from(runs && round(gpu, ring));
            }
            ran
        }
        Stage::Pick => repeat(&|| gpu.pick(ring).is_some()),
        Stage::Packets => repeat(&|| gpu.step_outside(ring)),
        Stage::PacketsUnder => repeat(&|| gpu.step(ring)),
        Stage::Finish => repeat(&|| gpu.finish(ring).is_some()),
        Stage::Round => repeat(&|| round(gpu, ring)),
        Stage::Status => (0..worker.rounds).filter(|_| gpu.status(0) == Some(1)).count() as u64,
    };
}

fn run_stages(gpu: &Gpu, workers: &mut [Worker], stages: &[Stage]) {
    for &stage in stages {
        thread::scope(|scope| {
            for worker in workers.iter_mut() {
                scope.spawn(move || work(gpu, worker, stage));
            }
        });
    }
}

struct Part {
    work: Work,
    jobs: usize,
    before: &'static [Stage],
    timed: &'static [Stage],
    after: &'static [Stage],
}

fn part_of(name: &str, rounds: usize) -> Option<Part> {
    let short = |before, timed, after| {
        let work = Work { packets: 1, len: 64, adds: false };
        Some(Part { work, jobs: rounds, before, timed, after })
    };
    let long = |adds, timed| {
        let work = Work { packets: 64, len: SIZE, adds };
        Some(Part { work, jobs: rounds / 64, before: &[Stage::Arm, Stage::Pick], timed, after: &[Stage::Finish] })
    };
    match name {
        "jobs" => short(&[], &[], &[]),
        "arm" => short(&[], &[Stage::Arm], &[Stage::Round]),
        "round" => short(&[Stage::Arm], &[Stage::Round], &[]),
        "submit" => short(&[], &[Stage::Submit], &[]),
        "status" => short(&[Stage::Submit], &[Stage::Status], &[]).map(|part| Part { jobs: 1, ..part }),
        "fills" => long(false, &[Stage::Packets]),
        "adds" => long(true, &[Stage::Packets]),
        "fills_under" => long(false, &[Stage::PacketsUnder]),
        "adds_under" => long(true, &[Stage::PacketsUnder]),
        _ => None,
    }
}

// What was done, and how long the timed stages took.
fn run_part(part: &Part, threads: usize, rounds: usize) -> (String, Duration) {
    let jobs_of = |ring| (0..part.jobs).map(|_| job_of(ring, part.work)).collect();
    let mut workers: Vec<Worker> =
        (0..threads).map(|ring| Worker { ring, jobs: jobs_of(ring), rounds, sum: 0 }).collect();
    let gpu = Gpu::build((part.jobs * threads).max(1));
    run_stages(&gpu, &mut workers, part.before);
    let start = Instant::now();
    run_stages(&gpu, &mut workers, part.timed);
    let took = start.elapsed();
    run_stages(&gpu, &mut workers, part.after);
    let device = gpu.device.into_inner().unwrap();
    let sum: u64 = workers.iter().map(|worker| worker.sum).sum();
    let packets: usize = device.journal.iter().map(|record| record.ran).sum();
    let bytes: u64 = device.buffers.iter().flatten().flatten().map(|&byte| u64::from(byte)).sum();
    (format!("{sum} {} {packets} {bytes}", device.journal.len()), took)
}

fn main() {
    for word in env::args().skip(1) {
        let parts: Vec<&str> = word.split(':').collect();
        let [name, threads, rounds] = parts[..] else { continue };
        let threads = threads.parse().unwrap_or(1).min(RINGS);
        let rounds = rounds.parse().unwrap_or(0);
        let Some(part) = part_of(name, rounds) else { continue };
        let (done, took) = run_part(&part, threads, rounds);
        println!("{name} {done}");
        eprintln!("{}", took.as_nanos());
    }
}
