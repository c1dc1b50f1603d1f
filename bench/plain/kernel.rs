//! The kernel over plain tables: what `crates/kernel_core` does, with no proof. Pages are kept in rings of indices, groups and bands in
//! short vectors, tokens as deadlines.

use crate::model::{Boot, ByteLine, Call, Counts, Move, Reply, State, TaskLine};

const ABSENT: u8 = 0;
const ACTIVE: u8 = 1;
const INACTIVE: u8 = 2;
const STORED: u8 = 3;
const NO_PAGE: u32 = u32::MAX;

/// A list of pages in order, by links over all keys.
struct Ring {
    head: u32,
    tail: u32,
    len: u32,
}

impl Ring {
    fn new() -> Ring {
        Ring { head: NO_PAGE, tail: NO_PAGE, len: 0 }
    }
}

pub struct Object {
    pub mappers: u64,
    pub state: State,
    pub queue: usize,
    pub group: usize,
    written: [u64; 4],
    pub active: u32,
    pub inactive: u32,
    pub stored: u32,
    pages: u32,
}

pub struct Task {
    pub live: bool,
    pub active: bool,
    wish: u8,
    pub band: usize,
    age: Option<u32>,
    pub limits: [(u32, bool); 2],
    counts: [u32; 4],
}

pub struct Kernel<'a> {
    pub boot: &'a Boot,
    pub objects: Vec<Object>,
    pub tasks: Vec<Task>,
    bands: Vec<Vec<usize>>,
    groups: [[Vec<usize>; 8]; 3],
    pub deadlines: [Vec<u64>; 3],
    place: Vec<u8>,
    mark: Vec<bool>,
    next: Vec<u32>,
    previous: Vec<u32>,
    active: Ring,
    inactive: Ring,
    stored: u32,
    entered: u64,
}

fn key(object: usize, page: u32) -> u32 {
    256 * object as u32 + page
}

/// State, queue and group of a state word; none where it is refused.
fn decode(word: u32) -> Option<(State, usize, usize)> {
    if word & !0x773 != 0 || word % 4 == 3 {
        return None;
    }
    match word % 4 {
        0 => Some((State::Nonvolatile, 0, 0)),
        2 => Some((State::Empty, 0, 0)),
        _ if word & 0x20 != 0 => Some((State::Volatile, 0, 0)),
        _ => Some((State::Volatile, if word & 0x40 != 0 { 1 } else { 2 }, (word >> 8) as usize & 7)),
    }
}

impl<'a> Kernel<'a> {
    pub fn new(boot: &'a Boot) -> Kernel<'a> {
        let objects: Vec<Object> = boot
            .objects
            .iter()
            .map(|object| Object {
                mappers: 0,
                state: State::Nonvolatile,
                queue: 0,
                group: 0,
                written: [0; 4],
                active: 0,
                inactive: 0,
                stored: 0,
                pages: object.pages,
            })
            .collect();
        let keys = 256 * objects.len();
        let mut kernel = Kernel {
            boot,
            objects,
            tasks: Vec::new(),
            bands: vec![Vec::new(); 21],
            groups: Default::default(),
            deadlines: Default::default(),
            place: vec![ABSENT; keys],
            mark: vec![false; keys],
            next: vec![NO_PAGE; keys],
            previous: vec![NO_PAGE; keys],
            active: Ring::new(),
            inactive: Ring::new(),
            stored: 0,
            entered: 0,
        };
        for (t, task) in boot.tasks.iter().enumerate() {
            let band = if task.band == 0 { task.ageing as usize } else { task.band as usize };
            kernel.tasks.push(Task {
                live: true,
                active: false,
                wish: task.band,
                band,
                age: (task.band == 0).then_some(0),
                limits: [task.inactive, task.active],
                counts: [0; 4],
            });
            kernel.bands[band].push(t);
        }
        kernel
    }

    pub fn free(&self) -> u32 {
        self.boot.frames - self.active.len - self.inactive.len
    }

    pub fn left(&self) -> u64 {
        self.entered - u64::from(self.inactive.len)
    }

    fn push(&mut self, place: u8, k: u32) {
        let ring = if place == ACTIVE { &mut self.active } else { &mut self.inactive };
        self.previous[k as usize] = ring.tail;
        self.next[k as usize] = NO_PAGE;
        if ring.tail == NO_PAGE {
            ring.head = k;
        } else {
            self.next[ring.tail as usize] = k;
        }
        ring.tail = k;
        ring.len += 1;
    }

    fn unlink(&mut self, place: u8, k: u32) {
        let (before, after) = (self.previous[k as usize], self.next[k as usize]);
        let ring = if place == ACTIVE { &mut self.active } else { &mut self.inactive };
        if before == NO_PAGE { ring.head = after } else { self.next[before as usize] = after }
        if after == NO_PAGE { ring.tail = before } else { self.previous[after as usize] = before }
        ring.len -= 1;
    }

    fn put(&mut self, k: u32, place: u8) {
        let object = (k / 256) as usize;
        match self.place[k as usize] {
            ACTIVE => {
                self.unlink(ACTIVE, k);
                self.objects[object].active -= 1;
            }
            INACTIVE => {
                self.unlink(INACTIVE, k);
                self.objects[object].inactive -= 1;
            }
            STORED => {
                self.stored -= 1;
                self.objects[object].stored -= 1;
            }
            _ => {}
        }
        match place {
            ACTIVE => {
                self.push(ACTIVE, k);
                self.objects[object].active += 1;
            }
            INACTIVE => {
                self.push(INACTIVE, k);
                self.objects[object].inactive += 1;
            }
            STORED => {
                self.stored += 1;
                self.objects[object].stored += 1;
            }
            _ => {}
        }
        self.place[k as usize] = place;
        self.mark[k as usize] = false;
    }

    fn owner(&self, o: usize) -> usize {
        self.objects[o].mappers.trailing_zeros() as usize
    }

    fn charge(&mut self, o: usize, add: bool) {
        let object = &self.objects[o];
        if object.mappers == 0 || object.state == State::Empty {
            return;
        }
        let at = usize::from(object.state == State::Volatile);
        let (resident, stored) = (object.active + object.inactive, object.stored);
        let owner = self.owner(o);
        let counts = &mut self.tasks[owner].counts;
        if add {
            counts[at] += resident;
            counts[2 + at] += stored;
        } else {
            counts[at] -= resident;
            counts[2 + at] -= stored;
        }
    }

    fn drop_pages(&mut self, o: usize) {
        for page in 0..self.objects[o].pages {
            let k = key(o, page);
            if self.place[k as usize] != ABSENT {
                self.put(k, ABSENT);
            }
        }
    }

    fn make_empty(&mut self, o: usize) {
        self.charge(o, false);
        self.drop_pages(o);
        self.objects[o].state = State::Empty;
        self.objects[o].written = [0; 4];
    }

    fn enter(&mut self, o: usize, queue: usize, group: usize) {
        self.objects[o].queue = queue;
        self.objects[o].group = group;
        let list = &mut self.groups[queue][group];
        if queue == 1 { list.insert(0, o) } else { list.push(o) }
    }

    fn leave(&mut self, o: usize) -> usize {
        let (queue, group) = (self.objects[o].queue, self.objects[o].group);
        self.groups[queue][group].retain(|&x| x != o);
        queue
    }

    fn add_token(&mut self, queue: usize) {
        let deadline = if queue == 0 { 0 } else { self.entered };
        self.deadlines[queue].push(deadline);
    }

    fn ripe(&self, queue: usize) -> bool {
        self.deadlines[queue].first().is_some_and(|&d| d <= self.left())
    }

    pub fn choice(&self) -> Option<(usize, usize)> {
        let queue = (0..3).find(|&q| self.ripe(q))?;
        if queue == 0 {
            return Some((0, self.groups[0][0][0]));
        }
        (0..8).find_map(|g| {
            self.groups[queue][g].first().or(self.groups[3 - queue][g].first()).map(|&o| (queue, o))
        })
    }

    fn purge(&mut self, token: usize, o: usize) -> Reply {
        let queue = self.leave(o);
        if queue == token || self.ripe(queue) {
            self.deadlines[queue].remove(0);
        } else {
            self.deadlines[token].remove(0);
            let d = self.deadlines[queue].remove(0);
            let at = self.deadlines[token].partition_point(|&x| x <= d);
            self.deadlines[token].insert(at, d);
        }
        self.make_empty(o);
        Reply::Purged(o as u32)
    }

    fn cease(&mut self, t: usize, o: usize) {
        self.charge(o, false);
        self.objects[o].mappers &= !(1 << t);
        if self.objects[o].mappers != 0 {
            self.charge(o, true);
            return;
        }
        if self.objects[o].state == State::Volatile {
            let queue = self.leave(o);
            self.deadlines[queue].remove(0);
        }
        self.drop_pages(o);
    }

    fn put_in_band(&mut self, t: usize, band: Option<usize>) {
        let old = self.tasks[t].band;
        self.bands[old].retain(|&x| x != t);
        if let Some(band) = band {
            self.tasks[t].band = band;
            self.bands[band].push(t);
        }
    }

    fn end(&mut self, t: usize) {
        for o in 0..self.objects.len() {
            if self.objects[o].mappers & (1 << t) != 0 {
                self.cease(t, o);
            }
        }
        self.tasks[t].live = false;
        self.tasks[t].age = None;
        self.put_in_band(t, None);
    }

    /// Answers a call of this thread.
    pub fn call(&mut self, who: usize, call: &Call) -> Reply {
        match self.boot.sides[who] {
            Some(t) => self.task_call(t as usize, call),
            None => self.kernel_call(call),
        }
    }

    fn task_call(&mut self, t: usize, call: &Call) -> Reply {
        if !self.tasks[t].live {
            return Reply::Refused("dead");
        }
        match *call {
            Call::Active(on) => self.set_active(t, on),
            Call::Ledger => Reply::Pages(self.counts(t)),
            Call::Exit => {
                self.end(t);
                Reply::Exited
            }
            _ => self.object_call(t, call),
        }
    }

    fn set_active(&mut self, t: usize, on: bool) -> Reply {
        let was = self.tasks[t].active;
        if was != on {
            self.tasks[t].active = on;
            self.tasks[t].age = None;
            if self.tasks[t].wish == 0 {
                self.put_in_band(t, Some(self.boot.tasks[t].ageing as usize));
                self.tasks[t].age = (!on).then_some(0);
            }
        }
        Reply::Was(was)
    }

    fn object_call(&mut self, t: usize, call: &Call) -> Reply {
        let o = call.object().unwrap() as usize;
        if self.boot.objects[o].tasks & (1 << t) == 0 {
            return Reply::Refused("notmine");
        }
        let mappers = self.objects[o].mappers;
        let maps = mappers & (1 << t) != 0;
        match call {
            Call::Map(_) if mappers != 0 => Reply::Refused("already"),
            Call::Map(_) => {
                self.objects[o].mappers = 1 << t;
                self.objects[o].state = State::Nonvolatile;
                self.objects[o].written = [0; 4];
                Reply::Mapped
            }
            Call::Attach(_) if mappers == 0 => Reply::Refused("noobject"),
            Call::Attach(_) if maps => Reply::Refused("already"),
            Call::Attach(_) => {
                self.charge(o, false);
                self.objects[o].mappers |= 1 << t;
                self.charge(o, true);
                Reply::Attached
            }
            _ if !maps => Reply::Refused("noobject"),
            Call::Unmap(_) => {
                self.cease(t, o);
                Reply::Unmapped
            }
            Call::Write(_, off, bytes) => self.access(o, *off, bytes.as_slice().len() as u32, true).unwrap_or(Reply::Wrote),
            Call::Read(_, off, len) => self.access(o, *off, *len, false).unwrap_or(Reply::Bytes(ByteLine::new(&[]))),
            Call::Set(_, word) => self.set(o, *word),
            _ => Reply::Is(self.objects[o].state),
        }
    }

    /// A refusal, or nothing where the bytes may be read or written.
    fn access(&mut self, o: usize, off: u32, len: u32, writes: bool) -> Option<Reply> {
        if len == 0 || 256 < len || 4096 * u64::from(self.objects[o].pages) < u64::from(off) + u64::from(len) {
            return Some(Reply::Refused("range"));
        }
        if self.objects[o].state == State::Empty {
            return writes.then_some(Reply::Refused("emptied"));
        }
        let pages = off / 4096..=(off + len - 1) / 4096;
        let out = |k: &u32| matches!(self.place[*k as usize], ABSENT | STORED);
        let missing = pages.clone().map(|page| key(o, page)).filter(out).count() as u32;
        if self.free() < missing {
            return Some(Reply::Shortage(missing, self.free()));
        }
        if 0 < missing {
            self.charge(o, false);
        }
        for page in pages {
            let k = key(o, page);
            match self.place[k as usize] {
                INACTIVE => self.mark[k as usize] = true,
                ACTIVE => {}
                _ => self.put(k, ACTIVE),
            }
            if writes {
                self.objects[o].written[page as usize / 64] |= 1 << (page % 64);
            }
        }
        if 0 < missing {
            self.charge(o, true);
        }
        None
    }

    fn set(&mut self, o: usize, word: u32) -> Reply {
        let Some((state, queue, group)) = decode(word) else {
            return Reply::Refused("invalid");
        };
        let old = self.objects[o].state;
        match (old, state) {
            (State::Nonvolatile, State::Volatile) => {
                self.charge(o, false);
                self.objects[o].state = state;
                self.charge(o, true);
                self.enter(o, queue, group);
                self.add_token(queue);
            }
            (State::Nonvolatile, State::Empty) => self.make_empty(o),
            (State::Volatile, State::Nonvolatile) => {
                let left = self.leave(o);
                self.deadlines[left].pop();
                self.charge(o, false);
                self.objects[o].state = state;
                self.charge(o, true);
            }
            (State::Volatile, State::Volatile) => {
                let left = self.leave(o);
                if left != queue {
                    self.deadlines[left].pop();
                    self.add_token(queue);
                }
                self.enter(o, queue, group);
            }
            (State::Volatile, State::Empty) => {
                let left = self.leave(o);
                self.deadlines[left].remove(0);
                self.make_empty(o);
            }
            (State::Empty, State::Nonvolatile) => self.objects[o].state = state,
            _ => {}
        }
        Reply::Old(old)
    }

    fn kernel_call(&mut self, call: &Call) -> Reply {
        match *call {
            Call::PurgeOne => match self.choice() {
                Some((queue, o)) => self.purge(queue, o),
                None => Reply::Nothing,
            },
            Call::Forced => self.force(),
            Call::Scan => self.scan(),
            Call::Tick => self.tick(),
            Call::Jetsam => self.jetsam(),
            Call::SetBand(t, band) => {
                let t = t as usize;
                if !self.tasks[t].live {
                    return Reply::Refused("dead");
                }
                self.tasks[t].wish = band;
                let to = if band == 0 { self.boot.tasks[t].ageing } else { band };
                self.put_in_band(t, Some(to as usize));
                self.tasks[t].age = (band == 0 && !self.tasks[t].active).then_some(0);
                Reply::Banded
            }
            Call::SetLimits(t, active, inactive) => {
                if !self.tasks[t as usize].live {
                    return Reply::Refused("dead");
                }
                self.tasks[t as usize].limits = [inactive, active];
                Reply::Limited
            }
            Call::Info => Reply::Frames(self.frames()),
            _ => Reply::Tokens(self.tokens()),
        }
    }

    fn force(&mut self) -> Reply {
        for queue in [2, 1, 0] {
            for group in 0..8 {
                if let Some(&o) = self.groups[queue][group].first() {
                    self.leave(o);
                    self.deadlines[queue].remove(0);
                    self.make_empty(o);
                    return Reply::Purged(o as u32);
                }
            }
        }
        Reply::Nothing
    }

    fn scan(&mut self) -> Reply {
        if self.boot.target <= self.free() {
            return Reply::Enough;
        }
        if self.inactive.len < self.boot.inactive && 0 < self.active.len {
            let k = self.active.head;
            self.put(k, INACTIVE);
            self.entered += 1;
            return Reply::Moved(Move::Deactivated, k / 256, k % 256);
        }
        if let Some((queue, o)) = self.choice() {
            return self.purge(queue, o);
        }
        if self.inactive.len == 0 {
            return Reply::Idle;
        }
        let k = self.inactive.head;
        let (o, page) = ((k / 256) as usize, k % 256);
        let written = self.objects[o].written[page as usize / 64] & (1 << (page % 64)) != 0;
        let (what, place) = if self.mark[k as usize] {
            (Move::Reactivated, ACTIVE)
        } else if !written {
            (Move::Freed, ABSENT)
        } else if self.stored < self.boot.store {
            (Move::Compressed, STORED)
        } else {
            (Move::Requeued, ACTIVE)
        };
        self.charge(o, false);
        self.put(k, place);
        self.charge(o, true);
        Reply::Moved(what, k / 256, page)
    }

    fn tick(&mut self) -> Reply {
        for task in &mut self.tasks {
            task.age = task.age.map(|age| age + 1);
        }
        let mut aged = Vec::new();
        for band in 1..3 {
            for &t in &self.bands[band] {
                if self.tasks[t].age.is_some_and(|age| self.boot.tasks[t].delay <= age) {
                    aged.push(t as u32);
                }
            }
        }
        for &t in &aged {
            self.tasks[t as usize].age = None;
            self.put_in_band(t as usize, Some(0));
        }
        Reply::Aged(TaskLine::new(&aged))
    }

    fn jetsam(&mut self) -> Reply {
        let (mut soft, mut first) = (None, None);
        let ranked: Vec<usize> = self.bands.iter().flatten().copied().collect();
        for t in ranked {
            let (pages, fatal) = self.tasks[t].limits[usize::from(self.tasks[t].active)];
            let internal = self.boot.tasks[t].internal;
            if pages < self.counts(t)[4] {
                if fatal {
                    self.end(t);
                    return Reply::Killed(t as u32, "limit");
                }
                if !internal && soft.is_none() {
                    soft = Some(t);
                }
            }
            if !internal && first.is_none() {
                first = Some(t);
            }
        }
        if self.boot.critical <= self.free() {
            return Reply::Quiet;
        }
        let Some(first) = first else {
            return Reply::NoVictim;
        };
        let (t, cause) = soft.map_or((first, "pressure"), |t| (t, "highwater"));
        self.end(t);
        Reply::Killed(t as u32, cause)
    }

    pub fn frames(&self) -> [u64; 6] {
        let counts = [self.free(), self.active.len, self.inactive.len, self.stored].map(u64::from);
        [counts[0], counts[1], counts[2], counts[3], self.entered, self.left()]
    }

    pub fn counts(&self, t: usize) -> Counts {
        let [a, b, c, d] = self.tasks[t].counts;
        [a, b, c, d, a + c]
    }

    pub fn tokens(&self) -> [u64; 12] {
        let left = self.left();
        let mut all = [0; 12];
        for (queue, list) in self.deadlines.iter().enumerate() {
            let ripe = list.partition_point(|&d| d <= left);
            all[4 * queue] = list.len() as u64;
            all[4 * queue + 1] = ripe as u64;
            all[4 * queue + 2] = list.get(ripe).map_or(0, |&d| d - left);
            all[4 * queue + 3] = list.last().map_or(0, |&d| d.saturating_sub(left));
        }
        all
    }

    /// The object that the call reads or may change.
    pub fn need(&self, call: &Call) -> Option<u32> {
        match call {
            Call::Map(o) | Call::Write(o, ..) | Call::Read(o, ..) => Some(*o),
            Call::Set(o, word) if matches!(decode(*word), Some((State::Empty, ..))) => Some(*o),
            Call::PurgeOne => self.choice().map(|(_, o)| o as u32),
            Call::Forced => [2, 1, 0].iter().find_map(|&q| self.groups[q].iter().find_map(|g| g.first())).map(|&o| o as u32),
            Call::Scan if self.free() < self.boot.target && !(self.inactive.len < self.boot.inactive && 0 < self.active.len) => {
                self.choice().map(|(_, o)| o as u32)
            }
            _ => None,
        }
    }
}
