//! A journal: a header, jobs with the packets that each has run, and the last bytes of all buffers.
use crate::header::Device;
use crate::job::Jobs;
use crate::memory::Memory;
use crate::text::{push, Cursor, Ending, BAD_JOB, END, FINAL, JOB, NUMBER, WORD};

pub struct Journal {
    device: Device,
    jobs: Jobs,
    /// How many packets each job has run.
    ran: Vec<u8>,
    /// The bytes that the journal tells, in the order of the buffers.
    finals: Vec<u8>,
}

impl Journal {
    pub fn read(text: &[u8]) -> Result<Journal, Ending> {
        let mut cursor = Cursor::new(text);
        let device = Device::read(&mut cursor)?;
        let mut journal = Journal { device, jobs: Jobs::default(), ran: Vec::new(), finals: Vec::new() };
        let mut finals = 0;
        loop {
            match cursor.first_word() {
                JOB if finals == 0 => journal.read_job(&mut cursor)?,
                FINAL if finals < journal.device.buffers.len() => {
                    journal.read_final(&mut cursor, finals)?;
                    finals += 1;
                }
                END if finals == journal.device.buffers.len() => break,
                key => return Err(cursor.misplaced(key)),
            }
        }
        cursor.line_end()?;
        if !cursor.is_at_end() {
            let key = cursor.first_word();
            return Err(cursor.misplaced(key));
        }
        Ok(journal)
    }

    fn read_job(&mut self, cursor: &mut Cursor) -> Result<(), Ending> {
        let ran = cursor.whole()?;
        cursor.space()?;
        let start = cursor.at;
        let status = cursor.word(start);
        if !matches!(status, b"0" | b"1" | b"-125" | b"-3") {
            return Err(cursor.fault(start, WORD));
        }
        cursor.at += status.len();
        let line = cursor.line_fault(BAD_JOB);
        let Ok(number) = self.jobs.read(cursor, &self.device)? else { return Err(line) };
        let job = &self.jobs.jobs[number as usize];
        let packets = u32::from(job.packets);
        let told = match status {
            b"1" => ran == packets,
            b"-3" => ran == 0,
            _ => ran <= packets,
        };
        if !told || number >= self.device.jobs || self.jobs.fences_of(job).iter().any(|fence| *fence >= number) {
            return Err(line);
        }
        push(&mut self.ran, ran as u8)
    }

    fn read_final(&mut self, cursor: &mut Cursor, buffer: usize) -> Result<(), Ending> {
        let start = cursor.at + 1;
        if cursor.bytes(&mut self.finals)? != self.device.buffers[buffer].size {
            return Err(cursor.fault(start, NUMBER));
        }
        cursor.line_end()
    }

    /// The machine that runs one job after another.
    pub fn serial(&self) -> Result<Memory, Ending> {
        let mut memory = Memory::new(&self.device)?;
        for (job, ran) in self.jobs.jobs.iter().zip(&self.ran) {
            for packet in &self.jobs.packets_of(job)[..usize::from(*ran)] {
                memory.run(*packet);
            }
        }
        Ok(memory)
    }

    /// The first buffer and byte where the journal tells something else.
    pub fn difference(&self, memory: &Memory) -> Option<(usize, usize)> {
        let at = memory.all().iter().zip(&self.finals).position(|(byte, told)| byte != told)?;
        Some(memory.place(at))
    }
}
