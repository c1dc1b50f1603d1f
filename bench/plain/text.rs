//! The texts, read and written. Bad texts end the program: only good ones are timed.

use crate::model::{Boot, ByteLine, Call, Entry, Move, ObjBoot, Reply, Scenario, State, TaskBoot};
use std::io::Write;

fn number<T: std::str::FromStr>(word: Option<&str>) -> T {
    word.and_then(|word| word.parse().ok()).expect("a number")
}

fn limit<'a>(words: &mut impl Iterator<Item = &'a str>) -> (u32, bool) {
    let pages = number(words.next());
    (pages, words.next() == Some("fatal"))
}

fn hex(word: &str) -> ByteLine {
    let digit = |b: u8| if b < b'a' { b - b'0' } else { b - b'a' + 10 };
    let mut bytes = [0; 256];
    for (to, two) in bytes.iter_mut().zip(word.as_bytes().chunks(2)) {
        *to = digit(two[0]) << 4 | digit(two[1]);
    }
    ByteLine::new(&bytes[..word.len() / 2])
}

pub fn read_call<'a>(words: &mut impl Iterator<Item = &'a str>) -> Option<Call> {
    Some(match words.next()? {
        "map" => Call::Map(number(words.next())),
        "attach" => Call::Attach(number(words.next())),
        "unmap" => Call::Unmap(number(words.next())),
        "write" => Call::Write(number(words.next()), number(words.next()), hex(words.next()?)),
        "read" => Call::Read(number(words.next()), number(words.next()), number(words.next())),
        "set" => Call::Set(number(words.next()), number(words.next())),
        "get" => Call::Get(number(words.next())),
        "active" => Call::Active(words.next() == Some("1")),
        "ledger" => Call::Ledger,
        "exit" => Call::Exit,
        "purge" => Call::PurgeOne,
        "force" => Call::Forced,
        "scan" => Call::Scan,
        "tick" => Call::Tick,
        "jetsam" => Call::Jetsam,
        "band" => Call::SetBand(number(words.next()), number(words.next())),
        "limits" => Call::SetLimits(number(words.next()), limit(words), limit(words)),
        "info" => Call::Info,
        "volatiles" => Call::Purgeables,
        _ => return None,
    })
}

/// The scenario, and the rest of the text.
pub fn read_scenario(text: &str) -> (Scenario, &str) {
    let mut scenario = Scenario::default();
    let mut delay = 1;
    let mut rest = text;
    loop {
        let (line, after) = rest.split_once('\n').expect("an end line");
        rest = after;
        let mut words = line.split(' ');
        match words.next().unwrap() {
            "jetlab" => {}
            "system" => {
                let numbers: Vec<u32> = words.filter_map(|word| word.parse().ok()).collect();
                let boot = &mut scenario.boot;
                (boot.frames, boot.target, boot.inactive) = (numbers[0], numbers[1], numbers[2]);
                (boot.store, boot.critical, delay) = (numbers[3], numbers[4], numbers[5]);
            }
            "task" => {
                let band = number(words.nth(2));
                words.next();
                let active = limit(&mut words);
                words.next();
                let inactive = limit(&mut words);
                let internal = words.next().is_some();
                scenario.boot.tasks.push(TaskBoot { band, active, inactive, internal, delay, ageing: 1 });
            }
            "object" => {
                words.nth(1);
                let mut tasks = 0;
                for word in words.by_ref() {
                    match word.parse::<u32>() {
                        Ok(t) => tasks |= 1 << t,
                        Err(_) => break,
                    }
                }
                scenario.boot.objects.push(ObjBoot { tasks, pages: number(words.next()) });
            }
            "thread" => {
                let side = (words.nth(1) == Some("task")).then(|| number(words.next()));
                scenario.boot.sides.push(side);
                scenario.scripts.push(Vec::new());
            }
            "order" => scenario.order = words.map(|word| number(Some(word))).collect(),
            "end" => return (scenario, rest),
            _ => {
                let call = read_call(&mut line.split(' ')).expect("a call");
                scenario.scripts.last_mut().expect("a thread").push(call);
            }
        }
    }
}

const HEX: &[u8; 16] = b"0123456789abcdef";

fn push_hex(out: &mut Vec<u8>, bytes: &[u8]) {
    for b in bytes {
        out.extend([HEX[usize::from(b >> 4)], HEX[usize::from(b & 15)]]);
    }
}

pub fn state_word(state: State) -> &'static str {
    match state {
        State::Nonvolatile => "nonvolatile",
        State::Volatile => "volatile",
        State::Empty => "empty",
    }
}

fn kind(fatal: bool) -> &'static str {
    if fatal { "fatal" } else { "soft" }
}

pub fn write_call(out: &mut Vec<u8>, call: &Call) {
    match call {
        Call::Map(o) => write!(out, "map {o}"),
        Call::Attach(o) => write!(out, "attach {o}"),
        Call::Unmap(o) => write!(out, "unmap {o}"),
        Call::Write(o, off, bytes) => {
            let _ = write!(out, "write {o} {off} ");
            push_hex(out, bytes.as_slice());
            Ok(())
        }
        Call::Read(o, off, len) => write!(out, "read {o} {off} {len}"),
        Call::Set(o, word) => write!(out, "set {o} {word}"),
        Call::Get(o) => write!(out, "get {o}"),
        Call::Active(on) => write!(out, "active {}", u8::from(*on)),
        Call::Ledger => write!(out, "ledger"),
        Call::Exit => write!(out, "exit"),
        Call::PurgeOne => write!(out, "purge"),
        Call::Forced => write!(out, "force"),
        Call::Scan => write!(out, "scan"),
        Call::Tick => write!(out, "tick"),
        Call::Jetsam => write!(out, "jetsam"),
        Call::SetBand(t, band) => write!(out, "band {t} {band}"),
        Call::SetLimits(t, a, i) => write!(out, "limits {t} {} {} {} {}", a.0, kind(a.1), i.0, kind(i.1)),
        Call::Info => write!(out, "info"),
        Call::Purgeables => write!(out, "volatiles"),
    }
    .unwrap();
}

pub fn numbers(out: &mut Vec<u8>, word: &str, list: impl IntoIterator<Item = u64>) {
    out.extend(word.as_bytes());
    for n in list {
        write!(out, " {n}").unwrap();
    }
}

pub fn write_reply(out: &mut Vec<u8>, reply: &Reply) {
    let word = match reply {
        Reply::Mapped => "mapped",
        Reply::Attached => "attached",
        Reply::Unmapped => "unmapped",
        Reply::Wrote => "wrote",
        Reply::Exited => "exited",
        Reply::Nothing => "nothing",
        Reply::Enough => "enough",
        Reply::Idle => "idle",
        Reply::Quiet => "quiet",
        Reply::NoVictim => "novictim",
        Reply::Banded => "banded",
        Reply::Limited => "limited",
        Reply::Bytes(bytes) => {
            out.extend(b"bytes ");
            return push_hex(out, bytes.as_slice());
        }
        Reply::Old(state) => return write!(out, "old {}", state_word(*state)).unwrap(),
        Reply::Is(state) => return write!(out, "state {}", state_word(*state)).unwrap(),
        Reply::Was(on) => return write!(out, "was {}", u8::from(*on)).unwrap(),
        Reply::Pages(counts) => return numbers(out, "pages", counts.iter().map(|&n| u64::from(n))),
        Reply::Purged(o) => return write!(out, "purged {o}").unwrap(),
        Reply::Moved(what, o, page) => {
            let word = match what {
                Move::Deactivated => "deactivated",
                Move::Reactivated => "reactivated",
                Move::Freed => "freed",
                Move::Compressed => "compressed",
                Move::Requeued => "requeued",
            };
            return write!(out, "{word} {o} {page}").unwrap();
        }
        Reply::Aged(tasks) => return numbers(out, "aged", tasks.as_slice().iter().map(|&t| u64::from(t))),
        Reply::Killed(t, cause) => return write!(out, "killed {t} {cause}").unwrap(),
        Reply::Frames(all) => return numbers(out, "frames", *all),
        Reply::Tokens(all) => return numbers(out, "tokens", *all),
        Reply::Refused(why) => return write!(out, "refused {why}").unwrap(),
        Reply::Shortage(needed, free) => return write!(out, "refused shortage {needed} {free}").unwrap(),
    };
    out.extend(word.as_bytes());
}

pub fn write_entry(out: &mut Vec<u8>, entry: &Entry) {
    write!(out, "{} ", entry.who).unwrap();
    write_call(out, &entry.call);
    out.extend(b" = ");
    write_reply(out, &entry.reply);
    out.push(b'\n');
}

pub fn write_scenario(out: &mut Vec<u8>, scenario: &Scenario) {
    let Boot { frames, target, inactive, store, critical, tasks, objects, sides } = &scenario.boot;
    let delay = tasks.first().map_or(1, |task| task.delay);
    writeln!(out, "jetlab 1\nsystem frames {frames} target {target} inactive {inactive} store {store} critical {critical} delay {delay}").unwrap();
    for (n, task) in tasks.iter().enumerate() {
        let (a, i) = (task.active, task.inactive);
        write!(out, "task {n} band {} active {} {} inactive {} {}", task.band, a.0, kind(a.1), i.0, kind(i.1)).unwrap();
        out.extend(if task.internal { b" internal\n".as_slice() } else { b"\n" });
    }
    for (n, object) in objects.iter().enumerate() {
        write!(out, "object {n} task").unwrap();
        numbers(out, "", (0..64).filter(|t| object.tasks & (1 << t) != 0));
        writeln!(out, " pages {}", object.pages).unwrap();
    }
    for (n, side) in sides.iter().enumerate() {
        match side {
            Some(t) => writeln!(out, "thread {n} task {t}").unwrap(),
            None => writeln!(out, "thread {n} kernel").unwrap(),
        }
        for call in &scenario.scripts[n] {
            write_call(out, call);
            out.push(b'\n');
        }
    }
    numbers(out, "order", scenario.order.iter().map(|&n| n as u64));
    out.extend(b"\nend\n");
}

pub fn write_history(out: &mut Vec<u8>, history: &[Entry]) {
    out.extend(b"history\n");
    for entry in history {
        write_entry(out, entry);
    }
    writeln!(out, "done {}", history.len()).unwrap();
}
