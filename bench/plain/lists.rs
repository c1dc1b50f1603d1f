//! Doubly linked lists of keys over the arrays of `link_list`, and the operations that `parts_bench` does.

use crate::draws::{Draws, mixed};

pub struct Lists<const N: usize> {
    cap: usize,
    next: Vec<usize>,
    prev: Vec<usize>,
    owner: Vec<usize>,
}

impl<const N: usize> Lists<N> {
    pub fn new(cap: usize) -> Self {
        let mut owner = vec![N; cap];
        owner.extend(0..N);
        Lists {
            cap,
            next: (0..cap + N).collect(),
            prev: (0..cap + N).collect(),
            owner,
        }
    }

    pub fn push_back(&mut self, l: usize, key: usize) {
        let end = self.cap + l;
        let last = self.prev[end];
        self.link(last, key, end, l);
    }

    pub fn push_front(&mut self, l: usize, key: usize) {
        let end = self.cap + l;
        let first = self.next[end];
        self.link(end, key, first, l);
    }

    fn link(&mut self, before: usize, key: usize, behind: usize, l: usize) {
        self.next[before] = key;
        self.next[key] = behind;
        self.prev[key] = before;
        self.prev[behind] = key;
        self.owner[key] = l;
    }

    pub fn remove(&mut self, key: usize) {
        let before = self.prev[key];
        let behind = self.next[key];
        self.next[before] = behind;
        self.prev[behind] = before;
        self.owner[key] = N;
    }

    pub fn front(&self, l: usize) -> Option<usize> {
        Some(self.next[self.cap + l]).filter(|first| *first < self.cap)
    }

    pub fn next(&self, key: usize) -> Option<usize> {
        self.list_of(key)?;
        Some(self.next[key]).filter(|behind| *behind < self.cap)
    }

    pub fn list_of(&self, key: usize) -> Option<usize> {
        Some(self.owner[key]).filter(|l| *l < N)
    }
}

const KEYS: usize = 1024;

const LISTS: usize = 8;

pub fn run(operations: u32) -> u64 {
    let mut draws = Draws::new();
    let mut lists = Lists::new(KEYS);
    let mut sum = 0;
    for _ in 0..operations {
        sum = mixed(sum, step(&mut lists, draws.next()).unwrap_or(KEYS) as u64);
    }
    sum
}

fn step(lists: &mut Lists<LISTS>, drawn: u64) -> Option<usize> {
    let key = (drawn % 1024) as usize;
    let list = (drawn / 1024 % 8) as usize;
    match drawn / 8192 % 8 {
        0 => lists.front(list),
        1 => lists.next(key),
        2 => lists.list_of(key),
        kind => Some(change(lists, key, list, kind % 2 == 0)),
    }
}

fn change(lists: &mut Lists<LISTS>, key: usize, list: usize, at_tail: bool) -> usize {
    match lists.list_of(key) {
        Some(l) => {
            lists.remove(key);
            return l;
        }
        None if at_tail => lists.push_back(list, key),
        None => lists.push_front(list, key),
    }
    LISTS
}
