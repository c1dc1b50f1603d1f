//! The commands on scenarios and histories, with no proof.

use crate::kernel::Kernel;
use crate::model::{ByteLine, Call, Entry, Reply, Scenario};
use crate::reports::{json, table, why};
use crate::text::{read_call, read_scenario, write_history, write_reply, write_scenario};
use std::io::Write;
use std::sync::Mutex;

/// The bytes of an object, which are there once a page was written.
#[derive(Default)]
struct Body {
    bytes: Vec<u8>,
}

impl Body {
    fn write(&mut self, off: u32, bytes: &[u8]) {
        let end = off as usize + bytes.len();
        if self.bytes.len() < end {
            self.bytes.resize(end, 0);
        }
        self.bytes[off as usize..end].copy_from_slice(bytes);
    }

    fn read(&self, off: u32, len: u32) -> ByteLine {
        let (off, len) = (off as usize, len.min(256) as usize);
        let mut seen = [0; 256];
        let there = self.bytes.get(off..self.bytes.len().min(off + len)).unwrap_or(&[]);
        seen[..there.len()].copy_from_slice(there);
        ByteLine::new(&seen[..len])
    }
}

/// What the reply leaves in the bytes that the call needed.
fn after(body: &mut Body, call: &Call, reply: &Reply) {
    match (call, reply) {
        (Call::Write(_, off, bytes), Reply::Wrote) => body.write(*off, bytes.as_slice()),
        (Call::Map(_), Reply::Mapped) | (_, Reply::Purged(_)) => body.bytes.clear(),
        (Call::Set(_, word), Reply::Old(_)) if word % 4 == 2 => body.bytes.clear(),
        _ => {}
    }
}

fn seen(body: &Body, call: &Call, reply: Reply) -> Reply {
    match (call, reply) {
        (Call::Read(_, off, len), Reply::Bytes(_)) => Reply::Bytes(body.read(*off, *len)),
        (_, reply) => reply,
    }
}

fn turns(scenario: &Scenario) -> Vec<(usize, &Call)> {
    let mut at = vec![0; scenario.scripts.len()];
    let mut turns = Vec::new();
    for &who in &scenario.order {
        if let Some(call) = scenario.scripts[who].get(at[who]) {
            turns.push((who, call));
            at[who] += 1;
        }
    }
    for (who, script) in scenario.scripts.iter().enumerate() {
        turns.extend(script[at[who]..].iter().map(|call| (who, call)));
    }
    turns
}

fn step(kernel: &mut Kernel<'_>, bodies: &mut [Body], who: usize, call: &Call) -> Reply {
    let need = kernel.need(call);
    let reply = kernel.call(who, call);
    match need {
        Some(o) => {
            let reply = seen(&bodies[o as usize], call, reply);
            after(&mut bodies[o as usize], call, &reply);
            reply
        }
        None => reply,
    }
}

pub fn serial(scenario: &Scenario) -> Vec<Entry> {
    let mut kernel = Kernel::new(&scenario.boot);
    let mut bodies: Vec<Body> = scenario.boot.objects.iter().map(|_| Body::default()).collect();
    turns(scenario)
        .into_iter()
        .map(|(who, call)| Entry { who, call: *call, reply: step(&mut kernel, &mut bodies, who, call) })
        .collect()
}

/// A thread a script, a mutex an object and one for the kernel and the history.
pub fn run(scenario: &Scenario) -> Vec<Entry> {
    let kernel = Mutex::new((Kernel::new(&scenario.boot), Vec::new()));
    let bodies: Vec<Mutex<Body>> = scenario.boot.objects.iter().map(|_| Mutex::default()).collect();
    std::thread::scope(|scope| {
        for (who, script) in scenario.scripts.iter().enumerate() {
            let (kernel, bodies) = (&kernel, &bodies);
            scope.spawn(move || script.iter().for_each(|call| shared(kernel, bodies, who, call)));
        }
    });
    kernel.into_inner().unwrap().1
}

fn shared(kernel: &Mutex<(Kernel<'_>, Vec<Entry>)>, bodies: &[Mutex<Body>], who: usize, call: &Call) {
    loop {
        let need = match call {
            Call::Map(o) | Call::Write(o, ..) | Call::Read(o, ..) | Call::Set(o, _) => Some(*o),
            Call::PurgeOne | Call::Forced | Call::Scan => kernel.lock().unwrap().0.need(call),
            _ => None,
        };
        let mut body = need.map(|o| bodies[o as usize].lock().unwrap());
        let mut turn = kernel.lock().unwrap();
        let now = turn.0.need(call);
        if now.is_some() && now != need {
            continue;
        }
        let mut reply = turn.0.call(who, call);
        if let Some(body) = &mut body {
            reply = seen(body, call, reply);
            after(body, call, &reply);
        }
        turn.1.push(Entry { who, call: *call, reply });
        return;
    }
}

/// Takes the entries of a history one after the other, from a kernel without any. Answers `legal` with all of them, or the line on the
/// first wrong one.
fn verdict<'a>(scenario: &'a Scenario, history: &str, kernel: &mut Kernel<'a>, mut seen: impl FnMut(&Entry)) -> String {
    let mut bodies: Vec<Body> = scenario.boot.objects.iter().map(|_| Body::default()).collect();
    let mut at = vec![0; scenario.scripts.len()];
    let mut due = Vec::new();
    let mut lines = history.lines();
    assert_eq!(lines.next(), Some("history"));
    for (place, line) in lines.enumerate() {
        if line.starts_with("done ") {
            let short = (0..at.len()).find(|&who| at[who] < scenario.scripts[who].len());
            return short.map_or("legal\n".to_string(), |who| format!("thread {who}: calls missing\n"));
        }
        let (left, right) = line.split_once(" = ").expect("an entry");
        let mut words = left.split(' ');
        let who: usize = words.next().and_then(|word| word.parse().ok()).expect("a thread");
        let call = read_call(&mut words).expect("a call");
        if at.get(who).and_then(|&n| scenario.scripts[who].get(n)) != Some(&call) {
            return format!("entry {place}: not the next call of its thread\n");
        }
        at[who] += 1;
        let entry = Entry { who, call, reply: step(kernel, &mut bodies, who, &call) };
        due.clear();
        write_reply(&mut due, &entry.reply);
        if due != right.as_bytes() {
            return format!("entry {place}: expected {}\n", String::from_utf8_lossy(&due));
        }
        seen(&entry);
    }
    panic!("no done line");
}

/// What is told of a legal history: `legal`, what stands at its end, or why the entry of this number was answered so.
fn judge(name: &str, number: usize, scenario: &Scenario, history: &str) -> Vec<u8> {
    let mut kernel = Kernel::new(&scenario.boot);
    if name == "check" {
        return verdict(scenario, history, &mut kernel, |_| ()).into_bytes();
    }
    let mut entries = Vec::new();
    let verdict = verdict(scenario, history, &mut kernel, |entry| entries.push(*entry));
    if verdict != "legal\n" {
        return verdict.into_bytes();
    }
    match name {
        "table" => table(&kernel, &entries),
        "json" => json(&kernel, &entries),
        "why" => {
            let mut before = Kernel::new(&scenario.boot);
            for entry in entries.iter().take(number) {
                before.call(entry.who, &entry.call);
            }
            why(&before, &entries, number)
        }
        _ => panic!("no such command"),
    }
}

/// Answers a command on this text.
pub fn command(name: &str, number: usize, text: &str, out: &mut impl Write) {
    let (scenario, rest) = read_scenario(text);
    let mut answer = Vec::new();
    match name {
        "check" | "table" | "json" | "why" => answer = judge(name, number, &scenario, rest),
        _ => {
            let history = if name == "run" { run(&scenario) } else { serial(&scenario) };
            write_scenario(&mut answer, &scenario);
            write_history(&mut answer, &history);
        }
    }
    out.write_all(&answer).unwrap();
}
