//! The command call timed beside the Rust's: 1,024 commands over 8 channels, most of them plays into a handful of bins, on fresh tables.
//! Ours is called through the crate `command_lines`, which reads the commands as text and then makes the same call several times: the text with
//! one call is taken off, and the same with one command, since the arrays are copied for every call.
//! Ours leaves each list sorted; the Rust sorts and sums it when it builds it, so that it is timed with its building and without.
use crate::commands::{line, naming, word};
use crate::rng::Rng;
use std::fs::File;
use std::hint::black_box;
use std::io::{stdout, Write};
use std::os::fd::AsRawFd;
use std::time::Instant;
use theirs::osc::Osc;
use theirs::tables::{Command, Item, Play, Tables};

pub(crate) const COMMANDS: usize = 1024;
/// Calls of the Rust's, and of ours, in a run. Ours reads the text first, which is to be little beside the calls.
const ROUNDS: usize = 4;
const CALLS: usize = 16;
const RUNS: usize = 300;
pub(crate) const CHANNELS: [&str; 8] = ["q0", "q1", "q2", "q3", "q4", "q5", "q6", "q7"];

mod c {
    extern "C" {
        pub fn skierralu_calls(text: *const u8, text_len: usize, out: i32) -> usize;
        pub fn dup(fd: i32) -> i32;
        pub fn dup2(fd: i32, to: i32) -> i32;
        pub fn close(fd: i32) -> i32;
    }
}

pub fn run() {
    println!(
        "{:44} {:>8} {:>8} {:>8}",
        "nanoseconds a command", "ours", "Rust", "ratio"
    );
    let kinds: [(&str, fn(&mut Rng) -> u64); 4] = [
        ("1,024 commands, most of them plays", |rng| rng.below(32)),
        ("1,024 plays", |_| 31),
        ("1,024 phase shifts", |_| 0),
        ("1,024 barriers", |_| 6),
    ];
    for (name, kind) in kinds {
        let [ours, theirs, built] = best(&commands(kind));
        row(name, ours, theirs);
        row(&format!("{name}, with build"), ours, built);
    }
}

pub(crate) fn row(name: &str, ours: f64, theirs: f64) {
    println!("{name:44} {ours:8.1} {theirs:8.1} {:8.2}", ours / theirs);
}

/// A command, its start and its span.
pub(crate) type Timed = (Command<'static>, f64, f64);

fn commands(kind: fn(&mut Rng) -> u64) -> Vec<Timed> {
    let mut rng = Rng::new(6);
    let mut shifted = [1.0; 8];
    (0..COMMANDS)
        .map(|k| {
            let at = rng.below(8) as usize;
            let (channel, x) = (CHANNELS[at], rng.sample());
            let command = match kind(&mut rng) {
                0..=2 => Command::ShiftPhase(channel, x),
                3 => {
                    shifted[at] = -shifted[at];
                    Command::ShiftFreq(channel, shifted[at])
                }
                4 => Command::SetPhase(channel, x),
                5 => Command::SwapPhase(channel, CHANNELS[rng.below(8) as usize]),
                6 => Command::Barrier,
                _ => play(&mut rng, channel, x),
            };
            (command, k as f64 * 0.25, 8.0)
        })
        .collect()
}

fn play(rng: &mut Rng, channel: &'static str, amplitude: f64) -> Command<'static> {
    let shaped = rng.below(4) != 0;
    Command::Play(Play {
        channel,
        shape: shaped.then_some("hann"),
        amplitude,
        width: 2.0,
        plateau: [0.0, 1.0][rng.below(2) as usize],
        drag: 0.5,
        frequency: 0.0,
        phase: rng.sample(),
        flexible: false,
    })
}

/// Nanoseconds a command in the best runs: ours, the Rust's, and the Rust's with its building. The three take turns.
fn best(list: &[Timed]) -> [f64; 3] {
    let given = |count: usize, calls: usize| {
        let lines: String = list[..count].iter().map(line_of).collect();
        let text = head() + &lines + &"y\n".repeat(calls);
        let all_ran = format!("x {:016x} {count:016x}\n", 0);
        assert_eq!(answers(&text), all_ran.repeat(calls), "all were run");
        text
    };
    let texts = [
        given(COMMANDS, 1 + CALLS),
        given(COMMANDS, 1),
        given(1, 1 + CALLS),
        given(1, 1),
    ];
    let item = |(command, start, span): &Timed| Item::new(command, *start, *span).expect("an item");
    let items: Vec<Item> = list.iter().map(item).collect();
    let nowhere = nowhere();
    let mut best = [f64::INFINITY; 6];
    for _ in 0..RUNS {
        let [a, b, c, d] = [0, 1, 2, 3].map(|k| ours(&texts[k], &nowhere));
        let times = [a, b, c, d, theirs(&items, false), theirs(&items, true)];
        best = std::array::from_fn(|k| times[k].min(best[k]));
    }
    let [all, all_once, one, one_once, theirs, built] = best;
    let ours = (all - all_once - (one - one_once)) / (CALLS * (COMMANDS - 1)) as f64;
    let [theirs, built] = [theirs, built].map(|time| time / (ROUNDS * COMMANDS) as f64);
    [ours, theirs, built]
}

/// The channels at rest and the shape `hann`, as `bench` has them, in lines.
pub(crate) fn head() -> String {
    let mut text = format!("t{}{} {:016x}\n", word(0.0), word(0.0), 0);
    for name in CHANNELS {
        text += &format!("c{}{}\n", naming(name), word(0.0).repeat(3));
    }
    text + &format!("s{}\n", naming("hann"))
}

pub(crate) fn line_of((command, start, span): &Timed) -> String {
    line(command, *start, *span)
}

/// What ours answers.
pub(crate) fn answers(text: &str) -> String {
    let path = "target/compare/answers";
    ours(text, &File::create(path).expect("a file"));
    std::fs::read_to_string(path).expect("answers")
}

pub(crate) fn nowhere() -> File {
    File::create("/dev/null").expect("a file")
}

/// Nanoseconds for a text, answered on a file: ours answers on standard output, which is that file meanwhile.
pub(crate) fn ours(text: &str, out: &File) -> f64 {
    stdout().flush().expect("what was printed");
    // SAFETY: both files are open, and standard output is put back below.
    let kept = unsafe { c::dup(1) };
    let turned = unsafe { c::dup2(out.as_raw_fd(), 1) };
    assert!(0 <= kept && turned == 1, "standard output is the file");
    let start = Instant::now();
    // SAFETY: the text is lent for the call, and it only reads it.
    let lines = unsafe { c::skierralu_calls(text.as_ptr(), text.len(), 1) };
    let time = start.elapsed().as_nanos() as f64;
    // SAFETY: as above.
    let back = unsafe { (c::dup2(kept, 1), c::close(kept)) };
    assert_eq!(back, (1, 0), "standard output is as before");
    assert_eq!(lines, text.lines().count(), "all were answered");
    time
}

fn theirs(items: &[Item], build: bool) -> f64 {
    let mut tables: Vec<Tables> = (0..ROUNDS).map(|_| bench()).collect();
    let mut lists = Vec::with_capacity(ROUNDS);
    let start = Instant::now();
    for tables in &mut tables {
        assert!(tables.run(black_box(items)), "all were run");
    }
    if build {
        lists.extend(tables.drain(..).map(Tables::into_lists));
    }
    let time = start.elapsed().as_nanos() as f64;
    black_box((tables, lists));
    time
}

pub(crate) fn bench() -> Tables {
    let mut tables = Tables::new(0.0, 0.0, false).expect("tables");
    for name in CHANNELS {
        let osc = Osc {
            base: 0.0,
            delta: 0.0,
            phase: 0.0,
        };
        tables.add_channel(name, osc).expect("a channel");
    }
    tables.add_hann("hann");
    tables
}
