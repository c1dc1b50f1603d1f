//! Tokens of three queues as `ripen_advance` keeps them, and the operations that `parts_bench` does.

use crate::draws::{Draws, mixed};
use crate::tokens::{Counts, MOST_AHEAD, TokenList};

#[derive(Clone, Copy, PartialEq, Eq)]
enum Queue {
    Obsolete,
    Lifo,
    Fifo,
}

struct TokenQueues {
    obsolete: TokenList,
    lifo: TokenList,
    fifo: TokenList,
}

impl TokenQueues {
    fn entered(&mut self, n: u32) {
        self.obsolete.entered(n);
        self.lifo.entered(n);
        self.fifo.entered(n);
    }

    fn departed(&mut self, n: u32) {
        self.obsolete.advance(n);
        self.lifo.advance(n);
        self.fifo.advance(n);
    }

    fn list(&self, q: Queue) -> &TokenList {
        match q {
            Queue::Obsolete => &self.obsolete,
            Queue::Lifo => &self.lifo,
            Queue::Fifo => &self.fifo,
        }
    }

    fn list_mut(&mut self, q: Queue) -> &mut TokenList {
        match q {
            Queue::Obsolete => &mut self.obsolete,
            Queue::Lifo => &mut self.lifo,
            Queue::Fifo => &mut self.fifo,
        }
    }

    fn add(&mut self, q: Queue) {
        match q {
            Queue::Obsolete => self.obsolete.insert(0),
            _ => self.list_mut(q).add(),
        }
    }

    fn ripe(&self, q: Queue) -> bool {
        self.list(q).first_is_ripe()
    }

    fn counts(&self) -> [Counts; 3] {
        [
            self.obsolete.counts(),
            self.lifo.counts(),
            self.fifo.counts(),
        ]
    }

    fn tokens(&self, q: Queue) -> u32 {
        self.list(q).counts().tokens
    }

    fn take_ripe(&mut self, token_queue: Queue, object_queue: Queue) {
        if self.ripe(object_queue) {
            self.list_mut(object_queue).drop_first();
            return;
        }
        self.list_mut(token_queue).drop_first();
        let due = self.list_mut(object_queue).drop_first();
        self.list_mut(token_queue).insert(due);
    }
}

struct QueueRun {
    queues: TokenQueues,
    ahead: u32,
}

pub fn run(operations: u32) -> u64 {
    let mut draws = Draws::new();
    let queues = TokenQueues {
        obsolete: TokenList::new(),
        lifo: TokenList::new(),
        fifo: TokenList::new(),
    };
    let mut run = QueueRun { queues, ahead: 0 };
    let mut sum = 0;
    for _ in 0..operations {
        sum = run.step(draws.next(), sum);
    }
    sum
}

fn queue_drawn(drawn: u64) -> Queue {
    match drawn % 4 {
        0 => Queue::Obsolete,
        1 => Queue::Lifo,
        _ => Queue::Fifo,
    }
}

fn queues_drawn(drawn: u64) -> (Queue, Queue) {
    match drawn % 5 {
        0 => (Queue::Obsolete, Queue::Obsolete),
        1 => (Queue::Lifo, Queue::Lifo),
        2 => (Queue::Lifo, Queue::Fifo),
        3 => (Queue::Fifo, Queue::Lifo),
        _ => (Queue::Fifo, Queue::Fifo),
    }
}

impl QueueRun {
    fn step(&mut self, drawn: u64, sum: u64) -> u64 {
        let pages = (drawn / 16 % 4) as u32;
        let queue = queue_drawn(drawn / 64);
        match drawn % 16 {
            0..=2 if self.ahead < MOST_AHEAD => {
                self.queues.entered(pages);
                self.ahead += pages;
            }
            3..=5 if pages <= self.ahead => {
                self.queues.departed(pages);
                self.ahead -= pages;
            }
            6..=8 if self.queues.tokens(queue) < 256 => self.queues.add(queue),
            9 if self.queues.tokens(queue) > 0 => {
                self.queues.list_mut(queue).drop_first();
            }
            10 if self.queues.tokens(queue) > 0 => {
                self.queues.list_mut(queue).drop_last();
            }
            11 | 12 => return self.purge(drawn / 64, sum),
            13 => return mixed(sum, self.queues.ripe(queue) as u64),
            14 => return mixed(sum, self.queues.list(queue).due_at(pages).unwrap_or(0)),
            15 => {
                let [obsolete, lifo, fifo] = self.queues.counts();
                return mixed(
                    mixed(sum, mixed(lifo.next, fifo.last)),
                    obsolete.ripe as u64,
                );
            }
            _ => {}
        }
        sum
    }

    fn purge(&mut self, drawn: u64, sum: u64) -> u64 {
        let (token_queue, object_queue) = queues_drawn(drawn);
        if self.queues.ripe(token_queue) && self.queues.tokens(object_queue) > 0 {
            self.queues.take_ripe(token_queue, object_queue);
            return mixed(sum, self.queues.tokens(token_queue) as u64);
        }
        sum
    }
}
