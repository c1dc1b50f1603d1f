//! What is told of a legal history.

use crate::kernel::Kernel;
use crate::model::{Call, Entry, Reply, State};
use crate::text::{numbers, state_word, write_entry};
use std::io::Write;

const QUEUES: [&str; 3] = ["obsolete", "lifo", "fifo"];

fn activity(active: bool) -> &'static str {
    if active { "active" } else { "idle" }
}

fn purges_and_kills(entries: &[Entry]) -> (usize, usize) {
    let purged = entries.iter().filter(|e| matches!(e.reply, Reply::Purged(_))).count();
    let killed = entries.iter().filter(|e| matches!(e.reply, Reply::Killed(..))).count();
    (purged, killed)
}

pub fn table(kernel: &Kernel<'_>, entries: &[Entry]) -> Vec<u8> {
    let mut out = Vec::new();
    let (purged, killed) = purges_and_kills(entries);
    writeln!(out, "entries {} purged {purged} killed {killed}", entries.len()).unwrap();
    for (t, task) in kernel.tasks.iter().enumerate() {
        if task.live {
            write!(out, "task {t} band {} {} ", task.band, activity(task.active)).unwrap();
            numbers(&mut out, "pages", kernel.counts(t).map(u64::from));
            out.push(b'\n');
        } else {
            writeln!(out, "task {t} dead").unwrap();
        }
    }
    for (o, object) in kernel.objects.iter().enumerate() {
        write!(out, "object {o} task {} ", kernel.boot.objects[o].tasks.trailing_zeros()).unwrap();
        if object.mappers == 0 {
            writeln!(out, "unmapped").unwrap();
        } else {
            writeln!(out, "{} {} {} {}", state_word(object.state), object.active, object.inactive, object.stored).unwrap();
        }
    }
    numbers(&mut out, "frames", kernel.frames());
    out.push(b'\n');
    numbers(&mut out, "tokens", kernel.tokens());
    out.push(b'\n');
    out
}

pub fn json(kernel: &Kernel<'_>, entries: &[Entry]) -> Vec<u8> {
    let (purged, killed) = purges_and_kills(entries);
    let objects: Vec<String> = kernel
        .objects
        .iter()
        .map(|object| match object.mappers {
            0 => "[\"unmapped\"]".to_string(),
            _ => format!("[\"{}\",{},{},{}]", state_word(object.state), object.active, object.inactive, object.stored),
        })
        .collect();
    let tasks: Vec<String> = kernel
        .tasks
        .iter()
        .enumerate()
        .map(|(t, task)| match task.live {
            false => "[\"dead\"]".to_string(),
            true => {
                let [a, b, c, d, e] = kernel.counts(t);
                format!("[{},\"{}\",{a},{b},{c},{d},{e}]", task.band, activity(task.active))
            }
        })
        .collect();
    format!(
        "{{\"entries\":{},\"frames\":[{}],\"killed\":{killed},\"objects\":[{}],\"purged\":{purged},\"tasks\":[{}],\"tokens\":[{}]}}\n",
        entries.len(),
        kernel.frames().map(|n| n.to_string()).join(","),
        objects.join(","),
        tasks.join(","),
        kernel.tokens().map(|n| n.to_string()).join(","),
    )
    .into_bytes()
}

/// The newest of these entries that emptied object o.
fn emptied_at(entries: &[Entry], o: u32) -> usize {
    let empties = |e: &Entry| match (e.call, e.reply) {
        (_, Reply::Purged(x)) => x == o,
        (Call::Set(x, word), Reply::Old(was)) => x == o && word % 4 == 2 && was != State::Empty,
        _ => false,
    };
    entries.iter().rposition(empties).expect("an emptying")
}

/// Why an entry was answered so, where the kernel is as it was before the entry.
pub fn why(kernel: &Kernel<'_>, entries: &[Entry], number: usize) -> Vec<u8> {
    let Some(entry) = entries.get(number) else {
        return format!("jetlab: no entry {number} of {}\n", entries.len()).into_bytes();
    };
    let mut out = Vec::new();
    write!(out, "entry {number}: ").unwrap();
    write_entry(&mut out, entry);
    match (entry.call, entry.reply) {
        (Call::Forced, Reply::Purged(o)) => {
            let object = &kernel.objects[o as usize];
            writeln!(out, "because forced {} group {} object {o}", QUEUES[object.queue], object.group).unwrap();
        }
        (_, Reply::Purged(o)) => {
            let object = &kernel.objects[o as usize];
            let (queue, _) = kernel.choice().expect("a ripe queue");
            let (deadline, left) = (kernel.deadlines[queue][0], kernel.left());
            writeln!(
                out,
                "because ripe {} deadline {deadline} left {left} group {} object {o} from {}",
                QUEUES[queue], object.group, QUEUES[object.queue]
            )
            .unwrap();
        }
        (_, Reply::Killed(t, cause)) => {
            let task = &kernel.tasks[t as usize];
            let (limit, _) = task.limits[usize::from(task.active)];
            let footprint = kernel.counts(t as usize)[4];
            writeln!(out, "because {cause} band {} footprint {footprint} limit {limit} free {}", task.band, kernel.free()).unwrap();
        }
        (Call::Set(o, _) | Call::Get(o), Reply::Old(State::Empty) | Reply::Is(State::Empty)) => {
            writeln!(out, "because emptied at entry {}", emptied_at(&entries[..number], o)).unwrap();
        }
        _ => {}
    }
    out
}
