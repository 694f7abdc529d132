//! The parts of the device in plain Rust, with the rounds of `drm_bench` over them.
use std::collections::VecDeque;
use std::env;

const JOBS: u32 = 65_535;
const ENTITIES: usize = 64;

#[derive(Clone, Copy, PartialEq, Eq)]
enum Outcome {
    Good,
    #[allow(dead_code)]
    Cancelled,
    Stopped,
}

#[derive(Clone, Copy, PartialEq, Eq)]
enum Phase {
    Queued,
    Scheduled,
    Ended(Outcome),
}

#[derive(Clone, Copy)]
struct FenceState {
    phase: Phase,
    ran: u32,
}

struct Timeline {
    fences: Vec<FenceState>,
    places: u32,
}

impl Timeline {
    fn new(places: u32) -> Timeline {
        Timeline { fences: Vec::with_capacity(places as usize), places }
    }

    fn armed(&self) -> u32 {
        self.fences.len() as u32
    }

    fn is_full(&self) -> bool {
        self.fences.len() == self.places as usize
    }

    fn arm(&mut self) -> u32 {
        let fence = self.fences.len() as u32;
        self.fences.push(FenceState { phase: Phase::Queued, ran: 0 });
        fence
    }

    fn phase(&self, fence: u32) -> Phase {
        self.fences[fence as usize].phase
    }

    fn ran(&self, fence: u32) -> u32 {
        self.fences[fence as usize].ran
    }

    fn has_ended(&self, fence: u32) -> bool {
        matches!(self.fences.get(fence as usize), Some(FenceState { phase: Phase::Ended(_), .. }))
    }

    fn status(&self, fence: u32) -> Option<i32> {
        self.fences.get(fence as usize).map(|state| match state.phase {
            Phase::Queued | Phase::Scheduled => 0,
            Phase::Ended(Outcome::Good) => 1,
            Phase::Ended(Outcome::Cancelled) => -125,
            Phase::Ended(Outcome::Stopped) => -3,
        })
    }

    fn schedule(&mut self, fence: u32) {
        self.fences[fence as usize].phase = Phase::Scheduled;
    }

    fn count_packet(&mut self, fence: u32) {
        self.fences[fence as usize].ran += 1;
    }

    fn finish(&mut self, fence: u32, outcome: Outcome) {
        self.fences[fence as usize].phase = Phase::Ended(outcome);
    }
}

fn timeline() -> u64 {
    let mut timeline = Timeline::new(JOBS);
    let mut sum = 0u64;
    for _ in 0..JOBS {
        if !timeline.is_full() {
            sum = sum.wrapping_add(timeline.arm() as u64);
        }
    }
    for fence in 0..JOBS {
        if fence < timeline.armed() && timeline.phase(fence) == Phase::Queued {
            timeline.schedule(fence);
        }
        if fence < timeline.armed() && timeline.phase(fence) == Phase::Scheduled && timeline.ran(fence) < 9 {
            timeline.count_packet(fence);
        }
        if fence < timeline.armed() && !timeline.has_ended(fence) {
            timeline.finish(fence, Outcome::Stopped);
        }
        if let Some(status) = timeline.status(fence) {
            sum = sum.wrapping_add(status.unsigned_abs() as u64);
        }
    }
    sum
}

#[derive(Clone, Copy)]
struct Pair {
    entity: u32,
    fence: u32,
    #[allow(dead_code)]
    of: u32,
    is_early: bool,
}

#[derive(Clone, Copy)]
struct Links {
    before: u32,
    behind: u32,
}

struct Waiters {
    cells: Vec<Option<Pair>>,
    unmet: Vec<u32>,
    links: Vec<Links>,
    fences: u32,
}

impl Waiters {
    fn new(entities: usize, fences: u32) -> Waiters {
        let mut links = Vec::with_capacity(entities * 64 + fences as usize);
        links.extend((0..entities * 64).map(|place| Links { before: place as u32, behind: place as u32 }));
        Waiters { cells: vec![None; entities * 64], unmet: vec![0; entities], links, fences }
    }

    fn lists(&self) -> usize {
        self.links.len() - self.cells.len()
    }

    fn add_list(&mut self) {
        let end = self.links.len() as u32;
        self.links.push(Links { before: end, behind: end });
    }

    fn prepare_next(&mut self) {
        if self.lists() < self.fences as usize {
            self.add_list();
        }
    }

    fn join(&mut self, before: usize, behind: usize) {
        self.links[before].behind = behind as u32;
        self.links[behind].before = before as u32;
    }

    fn is_watching(&self, entity: u32, of: u32) -> bool {
        self.cells[entity as usize * 64 + of as usize].is_some()
    }

    fn watch(&mut self, entity: u32, fence: u32, of: u32, is_early: bool) {
        let place = entity as usize * 64 + of as usize;
        while self.lists() <= fence as usize {
            self.add_list();
        }
        let end = self.cells.len() + fence as usize;
        let links = self.links[end];
        let (before, behind) = if is_early { (end, links.behind as usize) } else { (links.before as usize, end) };
        self.join(before, place);
        self.join(place, behind);
        self.cells[place] = Some(Pair { entity, fence, of, is_early });
        self.unmet[entity as usize] += 1;
    }

    fn take_out(&mut self, place: usize, pair: Pair) {
        let Links { before, behind } = self.links[place];
        self.join(before as usize, behind as usize);
        self.cells[place] = None;
        self.unmet[pair.entity as usize] -= 1;
    }

    fn release(&mut self, fence: u32, early_only: bool) {
        if fence as usize >= self.lists() {
            return;
        }
        let end = self.cells.len() + fence as usize;
        loop {
            let place = self.links[end].behind as usize;
            match self.cells.get(place) {
                Some(&Some(pair)) if pair.fence == fence && (pair.is_early || !early_only) => self.take_out(place, pair),
                _ => return,
            }
        }
    }

    fn unmet(&self, entity: u32) -> u32 {
        self.unmet.get(entity as usize).copied().unwrap_or(0)
    }

    fn forget(&mut self, entity: u32) {
        if entity as usize >= self.unmet.len() {
            return;
        }
        for of in 0..64 {
            if self.unmet[entity as usize] == 0 {
                return;
            }
            let place = entity as usize * 64 + of;
            if let Some(pair) = self.cells[place] {
                self.take_out(place, pair);
            }
        }
    }
}

fn waiters() -> u64 {
    let mut waiters = Waiters::new(ENTITIES, JOBS);
    let mut sum = 0u64;
    for job in 0..JOBS {
        let entity = job % 64;
        waiters.prepare_next();
        for step in 0..3u32 {
            let of = (entity * 7 + step * 11 + job / 64) % 64;
            let fence = job.saturating_sub(of);
            if (entity as usize) < waiters.unmet.len()
                && (of as usize) < waiters.unmet.len()
                && fence < waiters.fences
                && !waiters.is_watching(entity, of)
            {
                waiters.watch(entity, fence, of, of % 2 == 0);
            }
        }
        sum = sum.wrapping_add(waiters.unmet(entity) as u64);
        waiters.release(job.saturating_sub(40), true);
        waiters.release(job.saturating_sub(50), false);
        if job % 5 == 0 {
            waiters.forget((entity + 1) % 64);
        }
    }
    sum
}

#[derive(Clone, Copy, PartialEq, Eq, PartialOrd, Ord)]
enum Usage {
    #[allow(dead_code)]
    Kernel,
    Write,
    Read,
    Bookkeep,
}

#[derive(Clone, Copy)]
struct Entry {
    fence: u32,
    entity: u32,
    usage: Usage,
}

impl Entry {
    fn replaces(&self, old: &Entry, timeline: &Timeline) -> bool {
        timeline.has_ended(old.fence)
            || (old.entity == self.entity && self.usage <= old.usage && old.fence <= self.fence)
    }
}

struct Deps {
    list: [(u32, u32); 64],
    len: usize,
}

impl Deps {
    fn new() -> Deps {
        Deps { list: [(0, 0); 64], len: 0 }
    }

    fn as_slice(&self) -> &[(u32, u32)] {
        &self.list[..self.len]
    }

    fn note(&mut self, entity: u32, fence: u32) {
        match self.list[..self.len].iter_mut().find(|slot| slot.0 == entity) {
            Some(slot) => slot.1 = slot.1.max(fence),
            None => {
                self.list[self.len] = (entity, fence);
                self.len += 1;
            }
        }
    }
}

struct Resv {
    entries: Vec<Entry>,
    history: Vec<(u32, Usage)>,
}

impl Resv {
    fn reserve(&mut self) {
        self.entries.reserve(1);
        self.history.reserve(1);
    }

    fn has_room(&self) -> bool {
        self.entries.len() < self.entries.capacity() && self.history.len() < self.history.capacity()
    }

    fn collect(&self, usage: Usage, deps: &mut Deps) {
        for entry in &self.entries {
            if entry.usage <= usage {
                deps.note(entry.entity, entry.fence);
            }
        }
    }

    fn least_active(&self, usage: Usage, timeline: &Timeline) -> Option<u32> {
        self.entries
            .iter()
            .filter(|entry| entry.usage <= usage && !timeline.has_ended(entry.fence))
            .map(|entry| entry.fence)
            .min()
    }

    fn add(&mut self, fence: u32, entity: u32, usage: Usage, timeline: &Timeline) {
        let new = Entry { fence, entity, usage };
        self.history.push((fence, usage));
        match self.entries.iter_mut().find(|old| new.replaces(old, timeline)) {
            Some(old) => *old = new,
            None => self.entries.push(new),
        }
    }
}

fn usage_of(job: u32) -> Usage {
    match job % 8 {
        0 => Usage::Write,
        1 => Usage::Bookkeep,
        _ => Usage::Read,
    }
}

fn resv() -> u64 {
    let mut timeline = Timeline::new(JOBS);
    let mut resv = Resv { entries: Vec::new(), history: Vec::new() };
    let mut sum = 0u64;
    for job in 0..JOBS {
        resv.reserve();
        if resv.has_room() {
            resv.add(job, job % 64, usage_of(job), &timeline);
        }
        if !timeline.is_full() {
            timeline.arm();
        }
        let old = job.saturating_sub(100);
        if old < timeline.armed() && !timeline.has_ended(old) {
            timeline.finish(old, Outcome::Good);
        }
        if job % 4 == 0 {
            let mut deps = Deps::new();
            resv.collect(Usage::Read, &mut deps);
            sum = sum.wrapping_add(deps.len as u64);
            if let Some(least) = resv.least_active(Usage::Write, &timeline) {
                sum = sum.wrapping_add(least as u64);
            }
        }
    }
    std::hint::black_box(&resv.history);
    sum
}

fn deps() -> u64 {
    let mut sum = 0u64;
    for job in 0..JOBS {
        let mut deps = Deps::new();
        for step in 0..16u32 {
            deps.note((job + step % 8 * 5) % 64, (job + step) % 1000);
        }
        for dep in deps.as_slice() {
            sum = sum.wrapping_add(dep.1 as u64);
        }
    }
    sum
}

#[derive(Clone, Copy)]
struct Ends {
    first: u32,
    last: u32,
    len: usize,
}

struct Entities {
    ends: Vec<Ends>,
    next: Vec<u32>,
}

impl Entities {
    fn head(&self, entity: u32) -> Option<u32> {
        let ends = self.ends[entity as usize];
        if ends.len == 0 { None } else { Some(ends.first) }
    }

    fn push(&mut self, entity: u32, number: u32) {
        let ends = &mut self.ends[entity as usize];
        if ends.len == 0 {
            ends.first = number;
        } else {
            self.next[ends.last as usize] = number;
        }
        ends.last = number;
        ends.len += 1;
    }

    fn pop(&mut self, entity: u32) -> Option<u32> {
        let ends = &mut self.ends[entity as usize];
        if ends.len == 0 {
            return None;
        }
        let number = ends.first;
        ends.first = self.next[number as usize];
        ends.len -= 1;
        Some(number)
    }
}

fn entities() -> u64 {
    let idle = Ends { first: 0, last: 0, len: 0 };
    let mut entities = Entities { ends: vec![idle; ENTITIES], next: vec![0; JOBS as usize] };
    let mut sum = 0u64;
    for job in 0..JOBS {
        let entity = (job % 64 * 37) % 64;
        if (entity as usize) < entities.ends.len() {
            entities.push(entity, job);
        }
    }
    for job in 0..JOBS {
        let entity = job % 64;
        if (entity as usize) < entities.ends.len() {
            if let Some(number) = entities.pop(entity) {
                sum = sum.wrapping_add(number as u64);
            }
        }
        if (entity as usize) < entities.ends.len() {
            if let Some(number) = entities.head(entity) {
                sum = sum.wrapping_add(number as u64);
            }
        }
    }
    sum
}

#[derive(Clone, Copy, PartialEq, Eq, PartialOrd, Ord)]
enum Priority {
    Kernel,
    High,
    Normal,
    Low,
}

#[derive(Clone, Copy, PartialEq, Eq, PartialOrd, Ord)]
struct Key {
    priority: Priority,
    age: u32,
}

struct RunQueue {
    keys: Vec<Option<Key>>,
    order: Vec<(Key, u32)>,
}

impl RunQueue {
    fn set(&mut self, entity: u32, priority: Priority, age: u32) {
        self.clear(entity);
        let key = Key { priority, age };
        let place = self.order.partition_point(|place| *place < (key, entity));
        self.order.insert(place, (key, entity));
        self.keys[entity as usize] = Some(key);
    }

    fn clear(&mut self, entity: u32) {
        if let Some(key) = self.keys[entity as usize] {
            let place = self.order.partition_point(|place| *place < (key, entity));
            self.order.remove(place);
            self.keys[entity as usize] = None;
        }
    }

    fn first(&self, ready: impl Fn(u32) -> bool) -> Option<u32> {
        self.order.iter().map(|place| place.1).find(|entity| ready(*entity))
    }
}

fn run_queue() -> u64 {
    let mut queue = RunQueue { keys: vec![None; ENTITIES], order: Vec::with_capacity(ENTITIES) };
    let counts: Vec<u32> = vec![0; 48];
    let mut sum = 0u64;
    for job in 0..JOBS {
        let entity = (job % 64 * 37) % 64;
        if (entity as usize) < queue.keys.len() {
            let priority = match job / 5 % 4 {
                0 => Priority::Kernel,
                1 => Priority::High,
                2 => Priority::Normal,
                _ => Priority::Low,
            };
            queue.set(entity, priority, job);
        }
        if let Some(first) = queue.first(|entity| counts.get(entity as usize).is_none_or(|count| *count == 0)) {
            sum = sum.wrapping_add(first as u64);
        }
        let other = (entity + job / 64) % 64;
        if job % 3 == 0 && (other as usize) < queue.keys.len() {
            queue.clear(other);
        }
    }
    sum
}

struct PendingList {
    pending: VecDeque<u32>,
    passed: usize,
    credits: Credits,
    since: u64,
}

impl PendingList {
    fn put(&mut self, job: u32, credits: u16, now: u64) {
        if self.pending.is_empty() {
            self.since = now;
        }
        self.pending.push_back(job);
        self.credits.count += self.credits.need(credits);
    }

    fn pop(&mut self, credits: u16, now: u64) {
        if self.pending.len() != 1 {
            self.since = now;
        }
        self.pending.pop_front();
        self.passed = self.passed.saturating_sub(1);
        self.credits.count -= self.credits.need(credits);
    }

    fn mark_skip(&mut self, is_open: impl Fn(u32) -> bool) {
        while self.passed < self.pending.len() && !is_open(self.pending[self.passed]) {
            self.passed += 1;
        }
    }
}

fn shown(list: &PendingList) -> u64 {
    let head = list.pending.front().copied().unwrap_or(0) as u64;
    let current = list.pending.get(list.passed).copied().unwrap_or(0) as u64;
    head.wrapping_add(current).wrapping_add(list.since)
}

fn rings() -> u64 {
    let mut rings: Vec<PendingList> = (0..2)
        .map(|_| PendingList {
            pending: VecDeque::with_capacity(JOBS as usize),
            passed: 0,
            credits: Credits { limit: 65_535, count: 0 },
            since: 0,
        })
        .collect();
    let mut sum = 0u64;
    for job in 0..JOBS {
        let ring = (job % 2) as usize;
        if ring < rings.len() && rings[ring].pending.len() < rings[ring].credits.limit as usize {
            let credits = &rings[ring].credits;
            if credits.need(1) <= credits.limit - credits.count {
                rings[ring].put(job, 1, job as u64);
            }
        }
        if ring < rings.len() {
            rings[ring].mark_skip(|number| number == job && job % 7 != 0);
        }
        if job >= 1000 && ring < rings.len() {
            let credits = &rings[ring].credits;
            if credits.need(1) <= credits.count {
                rings[ring].pop(1, job as u64);
            }
        }
        if ring < rings.len() {
            sum = sum.wrapping_add(shown(&rings[ring]));
        }
    }
    sum
}

struct Credits {
    limit: u16,
    count: u16,
}

impl Credits {
    fn need(&self, credits: u16) -> u16 {
        credits.min(self.limit)
    }
}

fn credits() -> u64 {
    let mut credits = Credits { limit: 1000, count: 0 };
    let mut sum = 0u64;
    for job in 0..JOBS {
        let wanted = (job % 1500) as u16;
        if credits.need(wanted) <= credits.limit - credits.count {
            credits.count += wanted.min(credits.limit);
        } else if credits.need(wanted / 2) <= credits.count {
            credits.count -= (wanted / 2).min(credits.limit);
        }
        sum = sum.wrapping_add(credits.count as u64);
    }
    sum
}

struct Karma {
    resets: u16,
    karma: u16,
}

impl Karma {
    fn blame(&mut self, priority: Priority, hang_limit: u32) -> bool {
        self.resets = self.resets.saturating_add(1);
        if priority != Priority::Kernel {
            self.karma = self.karma.saturating_add(1);
        }
        hang_limit < self.karma as u32
    }
}

fn karma() -> u64 {
    let mut karma = Karma { resets: 0, karma: 0 };
    let mut sum = 0u64;
    for job in 0..JOBS {
        let priority = if job % 3 == 0 { Priority::Kernel } else { Priority::Low };
        if karma.blame(priority, job / 2) {
            sum = sum.wrapping_add(karma.karma as u64);
        }
        sum = sum.wrapping_add(karma.resets as u64);
    }
    sum
}

fn main() {
    for word in env::args().skip(1) {
        let Some((kind, rounds)) = word.split_once(':') else { continue };
        let round = match kind {
            "timeline" => timeline,
            "waiters" => waiters,
            "resv" => resv,
            "deps" => deps,
            "entities" => entities,
            "runq" => run_queue,
            "rings" => rings,
            "credits" => credits,
            "karma" => karma,
            _ => || 0,
        };
        let round = std::hint::black_box(round);
        let sum = (0..rounds.parse().unwrap_or(0)).fold(0u64, |sum, _| sum.wrapping_add(round()));
        println!("{kind} {sum}");
    }
}
