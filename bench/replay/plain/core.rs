//! The device, its reservations and contexts: what the events of a script do.
mod locks;
mod rings;
mod submission;

use crate::header::{Device, Priority};
use crate::job::{Job, Usage};
use crate::memory::Memory;
use crate::output::Output;
use crate::script::{Event, Script, CONTEXTS};
use crate::text::{with_room, Ending};

/// No job, or the end of a list of them.
const NONE: u32 = u32::MAX;
const PRIORITIES: usize = 4;

#[derive(Clone, Copy, PartialEq, Eq, PartialOrd, Ord)]
enum Phase {
    Queued,
    Scheduled,
    Good,
    Cancelled,
    Stopped,
}

impl Phase {
    fn has_ended(self) -> bool {
        self >= Phase::Good
    }

    fn tell(self, out: &mut Output) {
        match self {
            Phase::Queued | Phase::Scheduled => out.words(b"fence 0\n"),
            Phase::Good => out.words(b"fence 1\n"),
            Phase::Cancelled => out.words(b"fence -125\n"),
            Phase::Stopped => out.words(b"fence -3\n"),
        }
    }
}

/// A job that was armed. It is in the queue of its entity and then in that of its ring.
struct Armed {
    next: u32,
    first_packet: u32,
    packets: u8,
    ran: u8,
    entity: u8,
    /// How many dependencies keep it from being picked.
    unmet: u8,
    /// What it counts on its ring.
    credits: u16,
    resets: u16,
    karma: u16,
    /// The dependencies of other entities that had not ended as it was armed.
    dependencies: u8,
    first_dependency: u32,
    /// Lists of the dependencies on this job: of jobs of its ring, met as it is picked, and of others, met as it ends.
    same_ring: u32,
    other_rings: u32,
}

impl Armed {
    fn new(job: &Job, limit: u16, first_dependency: usize) -> Armed {
        Armed {
            next: NONE,
            first_packet: job.first_packet,
            packets: job.packets,
            ran: 0,
            entity: job.entity,
            unmet: 0,
            credits: job.credits.min(limit),
            resets: 0,
            karma: 0,
            dependencies: 0,
            first_dependency: first_dependency as u32,
            same_ring: NONE,
            other_rings: NONE,
        }
    }
}

struct Dependency {
    fence: u32,
    waiter: u32,
    next: u32,
}

/// A queue of jobs, linked through them.
struct Queue {
    head: u32,
    tail: u32,
}

impl Queue {
    const EMPTY: Queue = Queue { head: NONE, tail: NONE };

    fn push(&mut self, jobs: &mut [Armed], job: u32) {
        jobs[job as usize].next = NONE;
        match self.head {
            NONE => self.head = job,
            _ => jobs[self.tail as usize].next = job,
        }
        self.tail = job;
    }

    fn pop(&mut self, jobs: &[Armed]) {
        self.head = jobs[self.head as usize].next;
    }
}

struct Entity {
    queue: Queue,
    /// The job that left the queue last.
    previous: u32,
    /// How many of its jobs have not ended, and the ring that they are on.
    left: u32,
    ring: u8,
    priority: Priority,
    is_guilty: bool,
    is_stopped: bool,
}

struct Ring {
    pending: Queue,
    /// The first pending job that may have packets to run.
    current: u32,
    /// How many jobs on the ring, queued or pending, have not ended.
    left: u32,
    limit: u16,
    counted: u16,
    timeout: u32,
    hang_limit: u32,
    since: u64,
    /// For each priority the entities whose head may be picked, as a set of bits.
    ready: [u64; PRIORITIES],
}

struct Use {
    fence: u32,
    entity: u8,
    usage: Usage,
}

#[derive(Default)]
struct Context {
    /// No ticket is 0.
    ticket: u64,
    held: u64,
    is_sealed: bool,
    plan: Option<u32>,
}

/// A refusal's number and its field, if it has one.
enum Refusal {
    Plain(u8),
    With(u8, u32),
}

use Refusal::{Plain, With};

pub struct Core<'s> {
    script: &'s Script,
    memory: Memory,
    entities: Vec<Entity>,
    rings: Vec<Ring>,
    reservations: Vec<Vec<Use>>,
    armed: Vec<Armed>,
    phases: Vec<Phase>,
    dependencies: Vec<Dependency>,
    contexts: [Context; CONTEXTS],
    /// The context that holds each buffer, while one does; and the set of those buffers.
    holders: [u8; 64],
    held: u64,
    tickets: u64,
}

impl<'s> Core<'s> {
    /// Takes the memory for all that can be armed; only reservations grow later.
    pub fn new(script: &'s Script) -> Result<Core<'s>, Ending> {
        let device = &script.device;
        let most = script.jobs.jobs.len().min(device.jobs as usize);
        let mut reservations = with_room(device.buffers.len())?;
        reservations.extend(device.buffers.iter().map(|_| Vec::new()));
        Ok(Core {
            script,
            memory: Memory::new(device)?,
            entities: entities_of(device)?,
            rings: rings_of(device)?,
            reservations,
            armed: with_room(most)?,
            phases: with_room(most)?,
            dependencies: with_room(most * (device.entities.len() - 1))?,
            contexts: [const { Context { ticket: 0, held: 0, is_sealed: false, plan: None } }; CONTEXTS],
            holders: [0; 64],
            held: 0,
            tickets: 0,
        })
    }

    /// Runs one event and writes its answer.
    pub fn apply(&mut self, event: &Event, out: &mut Output) {
        let done = match *event {
            Event::Submit { job } => self.submit(job, out),
            Event::Begin { context } => self.begin(context, out),
            Event::Try { context, buffer } => self.try_lock(context, buffer, out),
            Event::Done { context } => self.done(context, out),
            Event::Drop { context, buffer } => self.drop_lock(context, buffer, out),
            Event::End { context } => self.end(context, out),
            Event::Plan { context, job } => self.plan(context, job, out),
            Event::Arm { context } => self.arm_plan(context, out),
            Event::Pick { ring, now } => self.pick(ring, now, out),
            Event::Step { ring } => self.step(ring, out),
            Event::Finish { ring, now } => self.finish(ring, now, out),
            Event::Timeout { ring, now } => self.timeout(ring, now, out),
            Event::Cancel { entity } => self.cancel(entity, out),
            Event::Reap { entity } => self.reap(entity, out),
            Event::Read { context, buffer } => self.read(context, buffer, out),
            Event::Fence { fence } => self.fence(fence, out),
            Event::Dump { buffer } => {
                out.bytes(self.memory.buffer(usize::from(buffer)));
                Ok(())
            }
        };
        match done {
            Ok(()) => {}
            Err(Plain(number)) => out.line(b"refused ", u64::from(number), b"\n"),
            Err(With(number, field)) => {
                out.line(b"refused ", u64::from(number), b" ");
                out.line(b"", u64::from(field), b"\n");
            }
        }
    }

    fn fence(&self, fence: u32, out: &mut Output) -> Result<(), Refusal> {
        let phase = self.phases.get(fence as usize).ok_or(With(20, fence))?;
        phase.tell(out);
        Ok(())
    }
}

fn entities_of(device: &Device) -> Result<Vec<Entity>, Ending> {
    let mut entities = with_room(device.entities.len())?;
    entities.extend(device.entities.iter().map(|entity| Entity {
        queue: Queue::EMPTY,
        previous: NONE,
        left: 0,
        ring: entity.rings[0] as u8,
        priority: entity.priority,
        is_guilty: false,
        is_stopped: false,
    }));
    Ok(entities)
}

fn rings_of(device: &Device) -> Result<Vec<Ring>, Ending> {
    let mut rings = with_room(device.rings.len())?;
    rings.extend(device.rings.iter().map(|ring| Ring {
        pending: Queue::EMPTY,
        current: NONE,
        left: 0,
        limit: ring.credit_limit,
        counted: 0,
        timeout: ring.timeout,
        hang_limit: ring.hang_limit,
        since: 0,
        ready: [0; PRIORITIES],
    }));
    Ok(rings)
}
