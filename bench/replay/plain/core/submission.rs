//! How a job gets its fence, and what it then waits for.
use super::Refusal::{Plain, With};
use super::{Armed, Core, Dependency, Phase, Refusal, Use, NONE};
use crate::job::{Job, JobFault};
use crate::output::Output;
use crate::script::Checked;

/// The job, or the refusal of its fault.
pub(super) fn checked(job: Checked) -> Result<u32, Refusal> {
    job.map_err(|fault| match fault {
        JobFault::NoEntity => Plain(10),
        JobFault::NoCredits => Plain(11),
        JobFault::TooMany(what) => With(13, u32::from(what)),
        JobFault::NoBuffer(buffer) => With(14, buffer),
        JobFault::DeclaredTwice(buffer) => With(15, u32::from(buffer)),
        JobFault::MoveNotKernel(buffer) => With(19, u32::from(buffer)),
        JobFault::Undeclared(packet) => With(16, packet),
        JobFault::OnHold(packet) => With(21, packet),
        JobFault::ReadOnly(packet) => With(17, packet),
        JobFault::OutOfRange(packet) => With(18, packet),
    })
}

impl<'s> Core<'s> {
    pub(super) fn job(&self, job: u32) -> &'s Job {
        &self.script.jobs.jobs[job as usize]
    }

    pub(super) fn submit(&mut self, job: Checked, out: &mut Output) -> Result<(), Refusal> {
        let job = self.job(checked(job)?);
        if self.held != 0 {
            let held = |buffer: u8| self.held >> buffer & 1 != 0;
            let mut declared = self.script.jobs.declarations_of(job).iter();
            if let Some(first) = declared.find(|declared| held(declared.buffer)) {
                return Err(With(57, u32::from(first.buffer)));
            }
        }
        self.make_room(job)?;
        self.arm(job, out)
    }

    /// Room for one more use of each buffer that the job declares.
    pub(super) fn make_room(&mut self, job: &Job) -> Result<(), Refusal> {
        for declared in self.script.jobs.declarations_of(job) {
            let uses = &mut self.reservations[usize::from(declared.buffer)];
            if uses.len() == uses.capacity() {
                uses.try_reserve(1).map_err(|_| Plain(12))?;
            }
        }
        Ok(())
    }

    /// The job gets its fence and joins its entity's queue.
    pub(super) fn arm(&mut self, job: &'s Job, out: &mut Output) -> Result<(), Refusal> {
        let fence = self.armed.len() as u32;
        if self.entities[usize::from(job.entity)].is_stopped {
            return Err(Plain(30));
        }
        if fence >= self.script.device.jobs {
            return Err(Plain(31));
        }
        let after = self.script.jobs.fences_of(job);
        if let Some(unknown) = after.iter().find(|after| **after >= fence) {
            return Err(With(20, *unknown));
        }
        let ring = self.ring_for(job.entity);
        let entity = &mut self.entities[usize::from(job.entity)];
        entity.ring = ring;
        entity.left += 1;
        self.rings[usize::from(ring)].left += 1;
        self.armed.push(Armed::new(job, self.rings[usize::from(ring)].limit, self.dependencies.len()));
        self.phases.push(Phase::Queued);
        self.link(job, fence, ring);
        for declared in self.script.jobs.declarations_of(job) {
            self.add_use(declared.buffer, Use { fence, entity: job.entity, usage: declared.access.adds() });
        }
        let queue = &mut self.entities[usize::from(job.entity)].queue;
        queue.push(&mut self.armed, fence);
        if queue.head == fence {
            self.look_at(job.entity);
        }
        out.line(b"armed ", u64::from(fence), b"\n");
        Ok(())
    }

    /// The ring of the entity's next job: an entity with no job left moves to the ring of its list with the fewest jobs
    /// left, of equal ones to the first.
    fn ring_for(&self, number: u8) -> u8 {
        let entity = &self.entities[usize::from(number)];
        if entity.left > 0 {
            return entity.ring;
        }
        let listed = self.script.device.entities[usize::from(number)].rings.iter();
        listed.min_by_key(|ring| self.rings[**ring as usize].left).map_or(entity.ring, |ring| *ring as u8)
    }

    /// Finds the jobs that the new one waits for: for each other entity the latest that has not ended. Those of its own
    /// entity leave the queue before it and end before it in any case.
    fn link(&mut self, job: &Job, fence: u32, ring: u8) {
        let mut latest = [0; 64];
        let mut entities = 0_u64;
        let mut note = |other: u8, of: u32, phases: &[Phase]| {
            if other != job.entity && !phases[of as usize].has_ended() {
                let place = &mut latest[usize::from(other)];
                *place = of.max(*place);
                entities |= 1 << other;
            }
        };
        for declared in self.script.jobs.declarations_of(job) {
            for entry in &self.reservations[usize::from(declared.buffer)] {
                if entry.usage <= declared.access.wanted() {
                    note(entry.entity, entry.fence, &self.phases);
                }
            }
        }
        for after in self.script.jobs.fences_of(job) {
            note(self.armed[*after as usize].entity, *after, &self.phases);
        }
        self.armed[fence as usize].dependencies = entities.count_ones() as u8;
        while entities != 0 {
            let other = entities.trailing_zeros() as usize;
            self.add_dependency(fence, ring, latest[other], self.entities[other].ring);
            entities &= entities - 1;
        }
    }

    fn add_dependency(&mut self, waiter: u32, ring: u8, fence: u32, its_ring: u8) {
        let place = self.dependencies.len() as u32;
        let other = &mut self.armed[fence as usize];
        let mut next = NONE;
        if ring != its_ring {
            next = std::mem::replace(&mut other.other_rings, place);
            self.armed[waiter as usize].unmet += 1;
        } else if self.phases[fence as usize] == Phase::Queued {
            next = std::mem::replace(&mut other.same_ring, place);
            self.armed[waiter as usize].unmet += 1;
        }
        self.dependencies.push(Dependency { fence, waiter, next });
    }

    /// A use replaces the first that has ended, or that is of its entity and no stronger; else it comes last.
    fn add_use(&mut self, buffer: u8, new: Use) {
        let phases = &self.phases;
        let uses = &mut self.reservations[usize::from(buffer)];
        let replaced = uses.iter_mut().find(|old| {
            old.entity == new.entity && new.usage <= old.usage || phases[old.fence as usize].has_ended()
        });
        match replaced {
            Some(old) => *old = new,
            None => uses.push(new),
        }
    }
}
