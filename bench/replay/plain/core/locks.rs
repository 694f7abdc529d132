//! Contexts, and the locks of buffers that they hold.
use super::submission::checked;
use super::Refusal::{Plain, With};
use super::{Context, Core, Refusal, Use};
use crate::job::Usage;
use crate::output::Output;
use crate::script::Checked;

impl Core<'_> {
    fn begun(&mut self, context: u8) -> Result<&mut Context, Refusal> {
        let context = &mut self.contexts[usize::from(context)];
        if context.ticket == 0 {
            return Err(Plain(51));
        }
        Ok(context)
    }

    /// The set of one buffer, which the context has to hold.
    fn holding(&mut self, context: u8, buffer: u8) -> Result<u64, Refusal> {
        let bit = 1 << buffer;
        if self.begun(context)?.held & bit == 0 {
            return Err(With(52, u32::from(buffer)));
        }
        Ok(bit)
    }

    /// No text has lines enough to draw all tickets.
    pub(super) fn begin(&mut self, context: u8, out: &mut Output) -> Result<(), Refusal> {
        if self.begun(context).is_ok() {
            return Err(Plain(50));
        }
        self.tickets += 1;
        self.contexts[usize::from(context)] = Context { ticket: self.tickets, ..Context::default() };
        out.line(b"ticket ", self.tickets, b"\n");
        Ok(())
    }

    pub(super) fn try_lock(&mut self, context: u8, buffer: u8, out: &mut Output) -> Result<(), Refusal> {
        let bit = 1 << buffer;
        let taken = self.held & bit != 0;
        let holder = self.contexts[usize::from(self.holders[usize::from(buffer)])].ticket;
        let own = self.begun(context)?;
        if own.is_sealed {
            return Err(Plain(55));
        }
        if own.held & bit != 0 {
            return Err(Plain(114));
        }
        if taken {
            match holder < own.ticket {
                true => out.line(b"older ", holder, b"\n"),
                false => out.line(b"younger ", holder, b"\n"),
            }
            return Ok(());
        }
        own.held |= bit;
        self.held |= bit;
        self.holders[usize::from(buffer)] = context;
        out.words(b"held\n");
        Ok(())
    }

    pub(super) fn done(&mut self, context: u8, out: &mut Output) -> Result<(), Refusal> {
        let own = self.begun(context)?;
        if own.is_sealed {
            return Err(Plain(55));
        }
        own.is_sealed = true;
        out.words(b"ok\n");
        Ok(())
    }

    pub(super) fn drop_lock(&mut self, context: u8, buffer: u8, out: &mut Output) -> Result<(), Refusal> {
        let bit = self.holding(context, buffer)?;
        let own = &mut self.contexts[usize::from(context)];
        own.held &= !bit;
        own.plan = None;
        self.held &= !bit;
        out.words(b"ok\n");
        Ok(())
    }

    pub(super) fn end(&mut self, context: u8, out: &mut Output) -> Result<(), Refusal> {
        let own = self.begun(context)?;
        if own.held != 0 {
            return Err(With(56, own.held.trailing_zeros()));
        }
        *own = Context::default();
        out.words(b"ok\n");
        Ok(())
    }

    /// What the job waits for is found as it is armed: until then nobody else can change the reservations.
    pub(super) fn plan(&mut self, context: u8, job: Checked, out: &mut Output) -> Result<(), Refusal> {
        let held = self.begun(context)?.held;
        let number = checked(job)?;
        let job = self.job(number);
        if self.script.jobs.declarations_of(job).iter().any(|declared| held >> declared.buffer & 1 == 0) {
            return Err(Plain(53));
        }
        self.make_room(job)?;
        let own = &mut self.contexts[usize::from(context)];
        own.is_sealed = true;
        own.plan = Some(number);
        out.words(b"planned\n");
        Ok(())
    }

    pub(super) fn arm_plan(&mut self, context: u8, out: &mut Output) -> Result<(), Refusal> {
        let plan = self.begun(context)?.plan.ok_or(Plain(54))?;
        self.arm(self.job(plan), out)?;
        self.contexts[usize::from(context)].plan = None;
        Ok(())
    }

    pub(super) fn read(&mut self, context: u8, buffer: u8, out: &mut Output) -> Result<(), Refusal> {
        self.holding(context, buffer)?;
        let active = |entry: &&Use| entry.usage <= Usage::Write && !self.phases[entry.fence as usize].has_ended();
        let uses = &self.reservations[usize::from(buffer)];
        if let Some(least) = uses.iter().filter(active).map(|entry| entry.fence).min() {
            return Err(With(46, least));
        }
        out.bytes(self.memory.buffer(usize::from(buffer)));
        Ok(())
    }
}
