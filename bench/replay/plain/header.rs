//! The header of a script or journal: what a device has.
use crate::text::{push, Cursor, Ending, BUFFER, ENTITY, GO, JOBS, RING, WORD, ZERO};

pub const BUFFER_LIMIT: usize = 4096;
const RING_LIMIT: usize = 8;

pub struct BufferSpec {
    pub size: usize,
    /// Its bytes stand in the list of given bytes; else they are zero.
    pub is_given: bool,
}

pub struct RingSpec {
    pub credit_limit: u16,
    pub timeout: u32,
    pub hang_limit: u32,
}

#[derive(Clone, Copy, PartialEq, Eq)]
pub enum Priority {
    Kernel,
    High,
    Normal,
    Low,
}

pub struct EntitySpec {
    pub rings: Vec<u32>,
    pub priority: Priority,
}

#[derive(Default)]
pub struct Device {
    pub buffers: Vec<BufferSpec>,
    pub given: Vec<u8>,
    pub rings: Vec<RingSpec>,
    pub entities: Vec<EntitySpec>,
    pub jobs: u32,
}

impl Device {
    pub fn read(cursor: &mut Cursor) -> Result<Device, Ending> {
        let mut device = Device::default();
        let mut has_jobs = false;
        loop {
            let before_rings = device.rings.is_empty() && device.entities.is_empty() && !has_jobs;
            match cursor.first_word() {
                BUFFER if before_rings => {
                    let size = cursor.bytes(&mut device.given)?;
                    push(&mut device.buffers, BufferSpec { size, is_given: true })?;
                }
                ZERO if before_rings => {
                    let size = usize::from(cursor.short()?);
                    push(&mut device.buffers, BufferSpec { size, is_given: false })?;
                }
                RING if device.entities.is_empty() && !has_jobs => {
                    let (credit_limit, timeout, hang_limit) = (cursor.short()?, cursor.whole()?, cursor.whole()?);
                    push(&mut device.rings, RingSpec { credit_limit, timeout, hang_limit })?;
                }
                ENTITY if !has_jobs => {
                    let (rings, priority) = (read_rings(cursor)?, read_priority(cursor)?);
                    push(&mut device.entities, EntitySpec { rings, priority })?;
                }
                JOBS if !has_jobs => {
                    device.jobs = cursor.whole()?;
                    has_jobs = true;
                }
                GO if has_jobs => {
                    cursor.line_end()?;
                    return device.checked();
                }
                key => return Err(cursor.misplaced(key)),
            }
            cursor.line_end()?;
        }
    }

    /// The device, or the first part of it that is out of its limits.
    fn checked(self) -> Result<Device, Ending> {
        let Device { buffers, rings, entities, .. } = &self;
        let many = |count, most| (count == 0 || count > most).then_some(0);
        let parts = [
            many(buffers.len(), 64),
            buffers.iter().position(|buffer| buffer.size == 0 || buffer.size > BUFFER_LIMIT),
            many(rings.len(), RING_LIMIT),
            rings.iter().position(|ring| ring.credit_limit == 0),
            rings.iter().position(|ring| ring.timeout == 0),
            rings.iter().position(|ring| ring.hang_limit > 1000),
            many(entities.len(), 64),
            entities.iter().position(|entity| !are_listed(&entity.rings, rings.len())),
            many(self.jobs as usize, 65_535),
        ];
        for (part, wrong) in parts.into_iter().enumerate() {
            if let Some(index) = wrong {
                return Err(Ending::NoDevice { part: part as u8, index: index as u32 });
            }
        }
        Ok(self)
    }
}

/// Whether an entity may list these rings: there are so many in all.
fn are_listed(rings: &[u32], all: usize) -> bool {
    let mut seen = 0_u8;
    rings.len() <= RING_LIMIT
        && rings.iter().all(|ring| {
            let is_new = (*ring as usize) < all && seen >> ring & 1 == 0;
            seen |= u8::from(is_new) << (ring & 7);
            is_new
        })
}

/// The next word, which is numbers with a comma between each two.
fn read_rings(cursor: &mut Cursor) -> Result<Vec<u32>, Ending> {
    cursor.space()?;
    let start = cursor.at;
    let mut rings = Vec::new();
    loop {
        let Some(ring) = cursor.digits(u64::from(u32::MAX)) else { return Err(cursor.bad_number(start)) };
        push(&mut rings, ring as u32)?;
        if cursor.next() != b',' {
            break;
        }
        cursor.at += 1;
    }
    if !cursor.is_at_word_end() {
        return Err(cursor.bad_number(start));
    }
    Ok(rings)
}

fn read_priority(cursor: &mut Cursor) -> Result<Priority, Ending> {
    cursor.space()?;
    let word = cursor.word(cursor.at);
    let priority = match word {
        b"kernel" => Priority::Kernel,
        b"high" => Priority::High,
        b"normal" => Priority::Normal,
        b"low" => Priority::Low,
        _ => return Err(cursor.fault(cursor.at, WORD)),
    };
    cursor.at += word.len();
    Ok(priority)
}
