//! What rings do, from the pick of a job to its end, and what ends it otherwise.
use super::Refusal::Plain;
use super::{Core, Dependency, Phase, Refusal, Ring, NONE};
use crate::header::Priority;
use crate::memory::Packet;
use crate::output::Output;

impl Core<'_> {
    fn is_complete(&self, job: u32) -> bool {
        let job = &self.armed[job as usize];
        job.ran == job.packets || self.entities[usize::from(job.entity)].is_guilty
    }

    /// Notes whether the head of the entity's queue may be picked.
    pub(super) fn look_at(&mut self, number: u8) {
        let entity = &self.entities[usize::from(number)];
        let head = entity.queue.head;
        let is_ready = head != NONE && !entity.is_stopped && self.armed[head as usize].unmet == 0;
        let ready = &mut self.rings[usize::from(entity.ring)].ready[entity.priority as usize];
        *ready = *ready & !(1 << number) | u64::from(is_ready) << number;
    }

    /// A dependency of each job of the list is met.
    fn wake(&mut self, mut list: u32) {
        while list != NONE {
            let Dependency { waiter, next, .. } = self.dependencies[list as usize];
            let job = &mut self.armed[waiter as usize];
            job.unmet -= 1;
            if job.unmet == 0 {
                let entity = job.entity;
                self.look_at(entity);
            }
            list = next;
        }
    }

    /// The head of the entity's queue leaves it.
    fn leave_queue(&mut self, number: u8) -> u32 {
        let entity = &mut self.entities[usize::from(number)];
        let head = entity.queue.head;
        entity.queue.pop(&self.armed);
        entity.previous = head;
        self.look_at(number);
        head
    }

    /// The ready entity of the first priority that has one, with the least head.
    fn choice(&self, ring: &Ring) -> Option<u8> {
        let mut left = *ring.ready.iter().find(|ready| **ready != 0)?;
        let mut least = (NONE, 0);
        while left != 0 {
            let entity = left.trailing_zeros() as u8;
            least = least.min((self.entities[usize::from(entity)].queue.head, entity));
            left &= left - 1;
        }
        Some(least.1)
    }

    pub(super) fn pick(&mut self, number: u8, now: u64, out: &mut Output) -> Result<(), Refusal> {
        let ring = &self.rings[usize::from(number)];
        let chosen = self.choice(ring).ok_or(Plain(40))?;
        let entity = &self.entities[usize::from(chosen)];
        let needed = self.armed[entity.queue.head as usize].credits;
        let free = ring.limit - ring.counted;
        if needed > free {
            out.line(b"refused 41 ", u64::from(needed), b" ");
            out.line(b"", u64::from(free), b"\n");
            return Ok(());
        }
        let is_skipped = entity.is_guilty;
        let fence = self.leave_queue(chosen);
        let ring = &mut self.rings[usize::from(number)];
        if ring.pending.head == NONE {
            ring.since = now;
        }
        ring.counted += needed;
        ring.pending.push(&mut self.armed, fence);
        if ring.current == NONE {
            ring.current = fence;
        }
        self.phases[fence as usize] = Phase::Scheduled;
        self.wake(self.armed[fence as usize].same_ring);
        match is_skipped {
            true => out.line(b"picked ", u64::from(fence), b" skip\n"),
            false => out.line(b"picked ", u64::from(fence), b" run\n"),
        }
        Ok(())
    }

    pub(super) fn step(&mut self, number: u8, out: &mut Output) -> Result<(), Refusal> {
        let mut current = self.rings[usize::from(number)].current;
        while current != NONE && self.is_complete(current) {
            current = self.armed[current as usize].next;
        }
        self.rings[usize::from(number)].current = current;
        if current == NONE {
            return Err(Plain(40));
        }
        let job = &mut self.armed[current as usize];
        let packet = self.script.jobs.packets[job.first_packet as usize + usize::from(job.ran)];
        if matches!(packet, Packet::Stall { resets } if job.resets < resets) {
            out.line(b"stalled ", u64::from(current), b"\n");
            return Ok(());
        }
        self.memory.run(packet);
        out.line(b"ran ", u64::from(current), b" ");
        out.line(b"", u64::from(job.ran), b"\n");
        job.ran += 1;
        Ok(())
    }

    pub(super) fn finish(&mut self, number: u8, now: u64, out: &mut Output) -> Result<(), Refusal> {
        let head = self.rings[usize::from(number)].pending.head;
        if head == NONE {
            return Err(Plain(40));
        }
        if !self.is_complete(head) {
            return Err(Plain(42));
        }
        let job = &self.armed[head as usize];
        let phase = match self.entities[usize::from(job.entity)].is_guilty {
            true => Phase::Cancelled,
            false => Phase::Good,
        };
        self.entities[usize::from(job.entity)].left -= 1;
        let ring = &mut self.rings[usize::from(number)];
        ring.left -= 1;
        ring.counted -= job.credits;
        ring.pending.pop(&self.armed);
        if ring.current == head {
            ring.current = ring.pending.head;
        }
        if ring.pending.head != NONE {
            ring.since = now;
        }
        self.phases[head as usize] = phase;
        self.wake(self.armed[head as usize].other_rings);
        match phase {
            Phase::Good => out.line(b"finished ", u64::from(head), b" 1\n"),
            _ => out.line(b"finished ", u64::from(head), b" -125\n"),
        }
        Ok(())
    }

    pub(super) fn timeout(&mut self, number: u8, now: u64, out: &mut Output) -> Result<(), Refusal> {
        let ring = &self.rings[usize::from(number)];
        let (head, age) = (ring.pending.head, now.saturating_sub(ring.since));
        if head == NONE {
            out.words(b"empty\n");
        } else if age < u64::from(ring.timeout) {
            out.line(b"notyet ", u64::from(ring.timeout) - age, b"\n");
        } else if self.is_complete(head) {
            out.words(b"complete\n");
        } else {
            self.hang(number, head, now, out);
        }
        Ok(())
    }

    /// From here on all pending jobs of a guilty entity count as skipped.
    fn hang(&mut self, number: u8, head: u32, now: u64, out: &mut Output) {
        let ring = &mut self.rings[usize::from(number)];
        let job = &mut self.armed[head as usize];
        let entity = &mut self.entities[usize::from(job.entity)];
        ring.since = now;
        job.resets = job.resets.saturating_add(1);
        if entity.priority != Priority::Kernel {
            job.karma = job.karma.saturating_add(1);
        }
        if u32::from(job.karma) > ring.hang_limit {
            entity.is_guilty = true;
            out.line(b"guilty ", u64::from(job.entity), b"\n");
        } else {
            out.words(b"resumed\n");
        }
    }

    pub(super) fn cancel(&mut self, entity: u8, out: &mut Output) -> Result<(), Refusal> {
        let own = &mut self.entities[usize::from(entity)];
        if own.is_stopped {
            return Err(Plain(43));
        }
        own.is_stopped = true;
        self.look_at(entity);
        out.words(b"ok\n");
        Ok(())
    }

    pub(super) fn reap(&mut self, number: u8, out: &mut Output) -> Result<(), Refusal> {
        let entity = &self.entities[usize::from(number)];
        let head = entity.queue.head;
        if !entity.is_stopped || head == NONE {
            return Err(Plain(45));
        }
        let has_ended = |fence: u32| self.phases[fence as usize].has_ended();
        let job = &self.armed[head as usize];
        let dependencies = &self.dependencies[job.first_dependency as usize..][..usize::from(job.dependencies)];
        let (same_ring, other_rings) = (job.same_ring, job.other_rings);
        if entity.previous != NONE && !has_ended(entity.previous)
            || dependencies.iter().any(|dependency| !has_ended(dependency.fence))
        {
            return Err(Plain(44));
        }
        self.leave_queue(number);
        let entity = &mut self.entities[usize::from(number)];
        entity.left -= 1;
        self.rings[usize::from(entity.ring)].left -= 1;
        self.phases[head as usize] = Phase::Stopped;
        self.wake(same_ring);
        self.wake(other_rings);
        out.line(b"reaped ", u64::from(head), b"\n");
        Ok(())
    }
}
