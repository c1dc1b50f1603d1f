//! Tokens of one queue over the arrays of `token_list`, and the operations that `parts_bench` does.

use crate::draws::{Draws, mixed};

const END: usize = 256;

/// A token's number is the difference of its due to that of the token before it.
pub struct TokenList {
    next: Box<[usize; 257]>,
    previous: Box<[usize; 257]>,
    numbers: Box<[u64; 257]>,
    free: Box<[usize; 256]>,
    used: usize,
    mark: usize,
    ripe: usize,
    ahead: u64,
}

pub struct Counts {
    pub tokens: u32,
    pub ripe: u32,
    pub next: u64,
    pub last: u64,
}

impl TokenList {
    pub fn new() -> TokenList {
        TokenList {
            next: Box::new([END; 257]),
            previous: Box::new([END; 257]),
            numbers: Box::new([0; 257]),
            free: Box::new(std::array::from_fn(|slot| slot)),
            used: 0,
            mark: END,
            ripe: 0,
            ahead: 0,
        }
    }

    pub fn entered(&mut self, n: u32) {
        self.numbers[END] += n as u64;
        self.ahead += n as u64;
    }

    pub fn advance(&mut self, n: u32) {
        let mut left = n as u64;
        while self.mark != END && self.numbers[self.mark] <= left {
            left -= self.numbers[self.mark];
            self.numbers[self.mark] = 0;
            self.mark = self.next[self.mark];
            self.ripe += 1;
        }
        self.numbers[self.mark] -= left;
        self.ahead -= n as u64;
    }

    pub fn add(&mut self) {
        self.insert(self.ahead);
    }

    pub fn insert(&mut self, due: u64) {
        let mut place = self.used;
        let mut at = END;
        let mut before = self.ahead - self.numbers[END];
        while before > due {
            place -= 1;
            at = self.previous[at];
            before -= self.numbers[at];
        }
        let gap = due - before;
        self.numbers[at] -= gap;
        let slot = self.free[self.used];
        let last = self.previous[at];
        self.link(last, slot);
        self.link(slot, at);
        self.numbers[slot] = gap;
        self.used += 1;
        if due == 0 {
            self.ripe += 1;
        } else if place == self.ripe {
            self.mark = slot;
        }
    }

    fn link(&mut self, before: usize, slot: usize) {
        self.next[before] = slot;
        self.previous[slot] = before;
    }

    pub fn drop_first(&mut self) -> u64 {
        let slot = self.next[END];
        let due = self.numbers[slot];
        self.take_out(slot, 0);
        due
    }

    pub fn drop_last(&mut self) -> u64 {
        let due = self.ahead - self.numbers[END];
        self.take_out(self.previous[END], self.used - 1);
        due
    }

    fn take_out(&mut self, slot: usize, place: usize) {
        let after = self.next[slot];
        self.numbers[after] += self.numbers[slot];
        self.link(self.previous[slot], after);
        self.used -= 1;
        self.free[self.used] = slot;
        if place < self.ripe {
            self.ripe -= 1;
        } else if place == self.ripe {
            self.mark = after;
        }
    }

    pub fn first_is_ripe(&self) -> bool {
        self.ripe > 0
    }

    pub fn due_at(&self, k: u32) -> Option<u64> {
        if k as usize >= self.used {
            return None;
        }
        let mut slot = self.next[END];
        let mut due = self.numbers[slot];
        for _ in 0..k {
            slot = self.next[slot];
            due += self.numbers[slot];
        }
        Some(due)
    }

    pub fn counts(&self) -> Counts {
        Counts {
            tokens: self.used as u32,
            ripe: self.ripe as u32,
            next: if self.mark == END {
                0
            } else {
                self.numbers[self.mark]
            },
            last: self.ahead - self.numbers[END],
        }
    }
}

pub const MOST_AHEAD: u32 = 1_000_000;

struct TokenRun {
    list: TokenList,
    ahead: u32,
}

pub fn run(operations: u32) -> u64 {
    let mut draws = Draws::new();
    let mut run = TokenRun {
        list: TokenList::new(),
        ahead: 0,
    };
    let mut sum = 0;
    for _ in 0..operations {
        sum = run.step(draws.next(), sum);
    }
    sum
}

impl TokenRun {
    fn tokens(&self) -> u32 {
        self.list.counts().tokens
    }

    fn step(&mut self, drawn: u64, sum: u64) -> u64 {
        let pages = (drawn / 16 % 4) as u32;
        match drawn % 16 {
            0..=3 if self.ahead < MOST_AHEAD => {
                self.list.entered(pages);
                self.ahead += pages;
            }
            4..=7 if pages <= self.ahead => {
                self.list.advance(pages);
                self.ahead -= pages;
            }
            8 | 9 if self.tokens() < 256 => {
                self.list.add();
            }
            10 if self.tokens() < 256 && drawn / 64 % 1024 <= self.ahead as u64 => {
                self.list.insert(drawn / 64 % 1024);
            }
            11 | 12 if self.tokens() > 0 => {
                return mixed(sum, self.list.drop_first());
            }
            13 if self.tokens() > 0 => {
                return mixed(sum, self.list.drop_last());
            }
            14 => return mixed(sum, self.list.first_is_ripe() as u64),
            15 => {
                let counts = self.list.counts();
                return mixed(
                    mixed(sum, mixed(counts.next, counts.last)),
                    counts.ripe as u64,
                );
            }
            _ => {}
        }
        sum
    }
}
