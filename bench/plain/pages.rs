//! Queues of pages over the arrays of `page_queues`, and the operations that `parts_bench` does.

use crate::draws::{Draws, mixed};
use crate::lists::Lists;

const ACTIVE: usize = 0;
const INACTIVE: usize = 1;
const STORED: usize = 2;

struct PageQueues {
    frames: u32,
    sizes: Vec<u32>,
    lists: Lists<3>,
    lengths: Vec<u32>,
    counts: Vec<u32>,
    marks: Vec<bool>,
}

#[derive(Clone, Copy)]
struct PageId {
    obj: u32,
    page: u32,
}

fn key_of(p: PageId) -> usize {
    256 * p.obj as usize + p.page as usize
}

fn page_of(key: usize) -> PageId {
    PageId {
        obj: (key / 256) as u32,
        page: (key % 256) as u32,
    }
}

impl PageQueues {
    fn new(frames: u32, sizes: &[u32]) -> PageQueues {
        PageQueues {
            frames,
            sizes: sizes.to_vec(),
            lists: Lists::new(256 * sizes.len()),
            lengths: vec![0; 3],
            counts: vec![0; 3 * sizes.len()],
            marks: vec![false; 256 * sizes.len()],
        }
    }

    fn list_of(&self, p: PageId) -> Option<usize> {
        self.lists.list_of(key_of(p))
    }

    fn free(&self) -> u32 {
        self.frames - (self.lengths[ACTIVE] + self.lengths[INACTIVE])
    }

    fn fault(&mut self, p: PageId) -> bool {
        if self.free() == 0 {
            return false;
        }
        self.move_to(key_of(p), ACTIVE);
        true
    }

    fn touch(&mut self, p: PageId) {
        if self.list_of(p) == Some(INACTIVE) {
            self.marks[key_of(p)] = true;
        }
    }

    fn first(&self, l: usize) -> Option<PageId> {
        self.lists.front(l).map(page_of)
    }

    fn first_inactive(&self) -> Option<(PageId, bool)> {
        self.lists
            .front(INACTIVE)
            .map(|key| (page_of(key), self.marks[key]))
    }

    fn move_first(&mut self, from: usize, to: Option<usize>) -> Option<PageId> {
        let key = self.lists.front(from)?;
        match to {
            Some(l) => self.move_to(key, l),
            None => self.make_absent(key),
        }
        Some(page_of(key))
    }

    fn drop_object(&mut self, obj: u32) -> u32 {
        let inactive = self.counts[3 * obj as usize + INACTIVE];
        for page in 0..self.sizes[obj as usize] {
            self.make_absent(key_of(PageId { obj, page }));
        }
        inactive
    }

    fn move_to(&mut self, key: usize, l: usize) {
        self.take(key);
        self.lists.push_back(l, key);
        self.lengths[l] += 1;
        self.counts[3 * (key / 256) + l] += 1;
        self.marks[key] = false;
    }

    fn make_absent(&mut self, key: usize) {
        self.take(key);
        self.marks[key] = false;
    }

    fn take(&mut self, key: usize) {
        if let Some(l) = self.lists.list_of(key) {
            self.lists.remove(key);
            self.lengths[l] -= 1;
            self.counts[3 * (key / 256) + l] -= 1;
        }
    }
}

pub fn run(operations: u32) -> u64 {
    let mut draws = Draws::new();
    let mut queues = PageQueues::new(2048, &[64; 64]);
    let mut sum = 0;
    for _ in 0..operations {
        sum = step(&mut queues, draws.next(), sum);
    }
    sum
}

fn with_page(sum: u64, page: Option<PageId>) -> u64 {
    match page {
        Some(p) => mixed(sum, 64 * p.obj as u64 + p.page as u64),
        None => mixed(sum, 4096),
    }
}

fn step(queues: &mut PageQueues, drawn: u64, sum: u64) -> u64 {
    let p = PageId {
        obj: (drawn / 64 % 64) as u32,
        page: (drawn % 64) as u32,
    };
    match drawn / 4096 % 16 {
        0..=5 => match queues.list_of(p) {
            None | Some(STORED) => mixed(sum, queues.fault(p) as u64),
            _ => {
                queues.touch(p);
                sum
            }
        },
        6 | 7 => moved(sum, queues.move_first(ACTIVE, Some(INACTIVE))),
        8 => moved(sum, queues.move_first(INACTIVE, Some(ACTIVE))),
        9 => moved(sum, queues.move_first(INACTIVE, None)),
        10 => moved(sum, queues.move_first(INACTIVE, Some(STORED))),
        11 => with_page(sum, queues.first(ACTIVE)),
        12 => match queues.first_inactive() {
            Some((p, is_marked)) => mixed(with_page(sum, Some(p)), is_marked as u64),
            None => sum,
        },
        13 => mixed(sum, queues.free() as u64 + queues.lengths[STORED] as u64),
        14 => mixed(sum, queues.counts[3 * p.obj as usize + INACTIVE] as u64),
        _ if drawn / 65536 % 16 == 0 => mixed(sum, queues.drop_object(p.obj) as u64),
        _ => {
            queues.touch(p);
            sum
        }
    }
}

fn moved(sum: u64, page: Option<PageId>) -> u64 {
    match page {
        Some(p) => with_page(sum, Some(p)),
        None => sum,
    }
}
