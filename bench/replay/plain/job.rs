//! Jobs, read and checked.
use crate::header::{Device, Priority};
use crate::memory::{Packet, Transfer};
use crate::text::{push, Cursor, Ending, NUMBER, WORD};

const DECLARATION_LIMIT: usize = 16;
const FENCE_LIMIT: usize = 16;
const PACKET_LIMIT: usize = 64;
const LARGEST: u64 = u32::MAX as u64;

/// A job that was checked: where its parts stand in the lists of all jobs, and how many they are.
pub struct Job {
    first_declaration: u32,
    first_fence: u32,
    pub first_packet: u32,
    pub credits: u16,
    pub entity: u8,
    declarations: u8,
    fences: u8,
    pub packets: u8,
}

#[derive(Clone, Copy)]
pub struct Declaration {
    pub buffer: u8,
    pub access: Access,
}

#[derive(Clone, Copy, PartialEq, Eq)]
pub enum Access {
    Read,
    Write,
    Hold,
    Move,
}

/// What a job is noted as at a buffer, the strongest first.
#[derive(Clone, Copy, PartialEq, Eq, PartialOrd, Ord)]
pub enum Usage {
    Kernel,
    Write,
    Read,
    Bookkeep,
}

impl Access {
    fn of(byte: u8) -> Option<Access> {
        match byte {
            b'r' => Some(Access::Read),
            b'w' => Some(Access::Write),
            b'h' => Some(Access::Hold),
            b'm' => Some(Access::Move),
            _ => None,
        }
    }

    /// The weakest usage that a job waits for.
    pub fn wanted(self) -> Usage {
        match self {
            Access::Read => Usage::Write,
            Access::Write => Usage::Read,
            Access::Hold => Usage::Kernel,
            Access::Move => Usage::Bookkeep,
        }
    }

    /// The usage that it is noted as.
    pub fn adds(self) -> Usage {
        match self {
            Access::Read => Usage::Read,
            Access::Write => Usage::Write,
            Access::Hold => Usage::Bookkeep,
            Access::Move => Usage::Kernel,
        }
    }
}

/// Why the device's check refuses a job.
#[derive(Clone, Copy)]
pub enum JobFault {
    NoEntity,
    NoCredits,
    TooMany(u8),
    NoBuffer(u32),
    DeclaredTwice(u8),
    MoveNotKernel(u8),
    Undeclared(u32),
    OnHold(u32),
    ReadOnly(u32),
    OutOfRange(u32),
}

#[derive(Default)]
pub struct Jobs {
    pub jobs: Vec<Job>,
    declarations: Vec<Declaration>,
    fences: Vec<u32>,
    pub packets: Vec<Packet>,
}

impl Jobs {
    pub fn declarations_of(&self, job: &Job) -> &[Declaration] {
        &self.declarations[job.first_declaration as usize..][..usize::from(job.declarations)]
    }

    pub fn fences_of(&self, job: &Job) -> &[u32] {
        &self.fences[job.first_fence as usize..][..usize::from(job.fences)]
    }

    pub fn packets_of(&self, job: &Job) -> &[Packet] {
        &self.packets[job.first_packet as usize..][..usize::from(job.packets)]
    }

    /// Reads the rest of a line as a job, and checks it. Tells its place in the list of jobs.
    pub fn read(&mut self, cursor: &mut Cursor, device: &Device) -> Result<Result<u32, JobFault>, Ending> {
        let entity = cursor.whole()?;
        let credits = cursor.short()?;
        let mut draft = Draft::new(self, device);
        while cursor.next() == b' ' {
            cursor.at += 1;
            let start = cursor.at;
            if !draft.read_word(cursor)? || !cursor.is_at_word_end() {
                return Err(bad_word(cursor, start, draft.part));
            }
        }
        cursor.line_end()?;
        match draft.checked(entity, credits) {
            Ok(job) => {
                push(&mut self.jobs, job)?;
                Ok(Ok(self.jobs.len() as u32 - 1))
            }
            Err(fault) => Ok(Err(fault)),
        }
    }
}

/// The words of a job come in this order.
#[derive(Clone, Copy, PartialEq, Eq, PartialOrd, Ord)]
enum Part {
    Declarations,
    Fences,
    Packets,
}

/// A job while its words are read, which go to the ends of the lists.
struct Draft<'j> {
    jobs: &'j mut Jobs,
    device: &'j Device,
    starts: [usize; 3],
    part: Part,
    /// The buffers that are declared, those of them that are touched, and those that are written, as sets of bits.
    declared: u64,
    touched: u64,
    written: u64,
    declarations: usize,
    fences: usize,
    packets: usize,
    no_buffer: Option<JobFault>,
    declared_twice: Option<JobFault>,
    first_moved: Option<u8>,
    bad_packet: Option<JobFault>,
}

impl<'j> Draft<'j> {
    fn new(jobs: &'j mut Jobs, device: &'j Device) -> Draft<'j> {
        Draft {
            starts: [jobs.declarations.len(), jobs.fences.len(), jobs.packets.len()],
            jobs,
            device,
            part: Part::Declarations,
            declared: 0,
            touched: 0,
            written: 0,
            declarations: 0,
            fences: 0,
            packets: 0,
            no_buffer: None,
            declared_twice: None,
            first_moved: None,
            bad_packet: None,
        }
    }

    /// Whether the next word begins as one that may stand here; the end of the word is still to be looked at.
    #[inline]
    fn read_word(&mut self, cursor: &mut Cursor) -> Result<bool, Ending> {
        let first = cursor.next();
        if let (Some(access), Part::Declarations) = (Access::of(first), self.part) {
            cursor.at += 1;
            let Some(buffer) = cursor.digits(LARGEST) else { return Ok(false) };
            self.declare(buffer as u32, access)?;
        } else if first == b'a' && self.part <= Part::Fences && cursor.second().is_ascii_digit() {
            cursor.at += 1;
            let Some(fence) = cursor.digits(LARGEST) else { return Ok(false) };
            self.part = Part::Fences;
            self.fences += 1;
            push(&mut self.jobs.fences, fence as u32)?;
        } else {
            let Some(packet) = RawPacket::read(cursor) else { return Ok(false) };
            self.part = Part::Packets;
            self.add_packet(packet)?;
        }
        Ok(true)
    }

    fn declare(&mut self, buffer: u32, access: Access) -> Result<(), Ending> {
        self.declarations += 1;
        if buffer as usize >= self.device.buffers.len() {
            self.no_buffer = self.no_buffer.or(Some(JobFault::NoBuffer(buffer)));
            return Ok(());
        }
        let bit = 1 << buffer;
        if self.declared & bit != 0 {
            self.declared_twice = self.declared_twice.or(Some(JobFault::DeclaredTwice(buffer as u8)));
        }
        self.declared |= bit;
        if access != Access::Hold {
            self.touched |= bit;
        }
        if matches!(access, Access::Write | Access::Move) {
            self.written |= bit;
        }
        if access == Access::Move {
            self.first_moved = self.first_moved.or(Some(buffer as u8));
        }
        push(&mut self.jobs.declarations, Declaration { buffer: buffer as u8, access })
    }

    #[inline]
    fn add_packet(&mut self, packet: RawPacket) -> Result<(), Ending> {
        let number = self.packets as u32;
        self.packets += 1;
        if self.bad_packet.is_none() && self.packets <= PACKET_LIMIT {
            match self.check_packet(packet, number) {
                Ok(packet) => push(&mut self.jobs.packets, packet)?,
                Err(fault) => self.bad_packet = Some(fault),
            }
        }
        Ok(())
    }

    #[inline]
    fn check_packet(&self, packet: RawPacket, number: u32) -> Result<Packet, JobFault> {
        let (source, from, target, to, length) = match packet {
            RawPacket::Stall { resets } => return Ok(Packet::Stall { resets }),
            RawPacket::Fill { range: [buffer, offset, length], .. } => (buffer, offset, buffer, offset, length),
            RawPacket::Copy([source, from, target, to, length]) => (source, from, target, to, length),
            RawPacket::Add([source, from, target, to, length]) => (source, from, target, to, length),
        };
        if !has(self.declared, source) || !has(self.declared, target) {
            return Err(JobFault::Undeclared(number));
        }
        if !has(self.touched, source) || !has(self.touched, target) {
            return Err(JobFault::OnHold(number));
        }
        if !has(self.written, target) {
            return Err(JobFault::ReadOnly(number));
        }
        if length == 0 || !self.fits(source, from, length) || !self.fits(target, to, length) {
            return Err(JobFault::OutOfRange(number));
        }
        let [from, to, length] = [from as u16, to as u16, length as u16];
        let transfer = Transfer { source: source as u8, target: target as u8, from, to, length };
        Ok(match packet {
            RawPacket::Fill { byte, .. } => Packet::Fill { buffer: target as u8, offset: to, length, byte },
            RawPacket::Add(_) => Packet::Add(transfer),
            _ => Packet::Copy(transfer),
        })
    }

    /// Whether a range ends in its buffer, which is declared.
    fn fits(&self, buffer: u32, offset: u32, length: u32) -> bool {
        u64::from(offset) + u64::from(length) <= self.device.buffers[buffer as usize].size as u64
    }

    /// The job, or the first reason for which it is refused; then it leaves nothing in the lists.
    fn checked(self, entity: u32, credits: u16) -> Result<Job, JobFault> {
        let fault = if entity as usize >= self.device.entities.len() {
            Some(JobFault::NoEntity)
        } else if credits == 0 {
            Some(JobFault::NoCredits)
        } else if self.declarations > DECLARATION_LIMIT {
            Some(JobFault::TooMany(0))
        } else if self.fences > FENCE_LIMIT {
            Some(JobFault::TooMany(1))
        } else if self.packets > PACKET_LIMIT {
            Some(JobFault::TooMany(2))
        } else {
            let is_kernel = self.device.entities[entity as usize].priority == Priority::Kernel;
            let moved = self.first_moved.filter(|_| !is_kernel).map(JobFault::MoveNotKernel);
            self.no_buffer.or(self.declared_twice).or(moved).or(self.bad_packet)
        };
        let [first_declaration, first_fence, first_packet] = self.starts;
        if let Some(fault) = fault {
            self.jobs.declarations.truncate(first_declaration);
            self.jobs.fences.truncate(first_fence);
            self.jobs.packets.truncate(first_packet);
            return Err(fault);
        }
        Ok(Job {
            first_declaration: first_declaration as u32,
            first_fence: first_fence as u32,
            first_packet: first_packet as u32,
            credits,
            entity: entity as u8,
            declarations: self.declarations as u8,
            fences: self.fences as u8,
            packets: self.packets as u8,
        })
    }
}

fn has(set: u64, buffer: u32) -> bool {
    buffer < 64 && set >> buffer & 1 != 0
}

/// A packet as it is spelled.
#[derive(Clone, Copy)]
enum RawPacket {
    Fill { range: [u32; 3], byte: u8 },
    Copy([u32; 5]),
    Add([u32; 5]),
    Stall { resets: u16 },
}

impl RawPacket {
    #[inline]
    fn read(cursor: &mut Cursor) -> Option<RawPacket> {
        if cursor.takes(b"fill") {
            let range = [field(cursor)?, field(cursor)?, field(cursor)?];
            let byte = cursor.takes(b":").then(|| cursor.byte())??;
            Some(RawPacket::Fill { range, byte })
        } else if cursor.takes(b"copy") {
            Some(RawPacket::Copy(transfer(cursor)?))
        } else if cursor.takes(b"add") {
            Some(RawPacket::Add(transfer(cursor)?))
        } else if cursor.takes(b"stall:") {
            Some(RawPacket::Stall { resets: cursor.digits(u64::from(u16::MAX))? as u16 })
        } else {
            None
        }
    }
}

fn transfer(cursor: &mut Cursor) -> Option<[u32; 5]> {
    Some([field(cursor)?, field(cursor)?, field(cursor)?, field(cursor)?, field(cursor)?])
}

#[inline]
fn field(cursor: &mut Cursor) -> Option<u32> {
    if cursor.next() != b':' {
        return None;
    }
    cursor.at += 1;
    cursor.digits(LARGEST).map(|value| value as u32)
}

/// What is wrong with a word of a job that was not read.
#[cold]
fn bad_word(cursor: &Cursor, start: usize, part: Part) -> Ending {
    let word = cursor.word(start);
    let mut fields = word.split(|byte| *byte == b':');
    let name = fields.next().unwrap_or_default();
    let known = match (name, fields.count()) {
        ([b'r' | b'w' | b'h' | b'm', ..], 0) => part == Part::Declarations,
        ([b'a', ..], 0) => part <= Part::Fences,
        (b"fill", 4) | (b"copy" | b"add", 5) | (b"stall", 1) => true,
        _ => false,
    };
    cursor.fault(start, if known { NUMBER } else { WORD })
}
