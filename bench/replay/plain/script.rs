//! A script: a header, and the events of its lines.
use crate::header::Device;
use crate::job::{JobFault, Jobs};
use crate::text::{
    push, Cursor, Ending, ARM, BEGIN, CANCEL, DONE, DROP, DUMP, END, FENCE, FINISH, PICK, PLAN, READ, REAP, STEP,
    SUBMIT, TIMEOUT, TRY,
};

pub const CONTEXTS: usize = 64;

/// A job of a script: its place in the list of jobs, or why it is refused.
pub type Checked = Result<u32, JobFault>;

pub enum Event {
    Submit { job: Checked },
    Begin { context: u8 },
    Try { context: u8, buffer: u8 },
    Done { context: u8 },
    Drop { context: u8, buffer: u8 },
    End { context: u8 },
    Plan { context: u8, job: Checked },
    Arm { context: u8 },
    Pick { ring: u8, now: u64 },
    Step { ring: u8 },
    Finish { ring: u8, now: u64 },
    Timeout { ring: u8, now: u64 },
    Cancel { entity: u8 },
    Reap { entity: u8 },
    Read { context: u8, buffer: u8 },
    Fence { fence: u32 },
    Dump { buffer: u8 },
}

pub struct Script {
    pub device: Device,
    pub jobs: Jobs,
    pub events: Vec<Event>,
}

impl Script {
    pub fn read(text: &[u8]) -> Result<Script, Ending> {
        let mut cursor = Cursor::new(text);
        let device = Device::read(&mut cursor)?;
        let mut script = Script { device, jobs: Jobs::default(), events: Vec::new() };
        while !cursor.is_at_end() {
            let event = script.read_event(&mut cursor)?;
            push(&mut script.events, event)?;
        }
        Ok(script)
    }

    #[inline]
    fn read_event(&mut self, cursor: &mut Cursor) -> Result<Event, Ending> {
        let Device { buffers, rings, entities, .. } = &self.device;
        let (buffers, rings, entities) = (buffers.len(), rings.len(), entities.len());
        let event = match cursor.first_word() {
            SUBMIT => return Ok(Event::Submit { job: self.jobs.read(cursor, &self.device)? }),
            PLAN => {
                let context = cursor.index(CONTEXTS)?;
                return Ok(Event::Plan { context, job: self.jobs.read(cursor, &self.device)? });
            }
            BEGIN => Event::Begin { context: cursor.index(CONTEXTS)? },
            TRY => Event::Try { context: cursor.index(CONTEXTS)?, buffer: cursor.index(buffers)? },
            DONE => Event::Done { context: cursor.index(CONTEXTS)? },
            DROP => Event::Drop { context: cursor.index(CONTEXTS)?, buffer: cursor.index(buffers)? },
            END => Event::End { context: cursor.index(CONTEXTS)? },
            ARM => Event::Arm { context: cursor.index(CONTEXTS)? },
            PICK => Event::Pick { ring: cursor.index(rings)?, now: cursor.moment()? },
            STEP => Event::Step { ring: cursor.index(rings)? },
            FINISH => Event::Finish { ring: cursor.index(rings)?, now: cursor.moment()? },
            TIMEOUT => Event::Timeout { ring: cursor.index(rings)?, now: cursor.moment()? },
            CANCEL => Event::Cancel { entity: cursor.index(entities)? },
            REAP => Event::Reap { entity: cursor.index(entities)? },
            READ => Event::Read { context: cursor.index(CONTEXTS)?, buffer: cursor.index(buffers)? },
            FENCE => Event::Fence { fence: cursor.whole()? },
            DUMP => Event::Dump { buffer: cursor.index(buffers)? },
            key => return Err(cursor.misplaced(key)),
        };
        cursor.line_end()?;
        Ok(event)
    }
}
