//! Several calls on the same tables beside the test copy's, with what `commands` leaves out: channels added again between calls, full tables,
//! numbers worked out that are not finite, names that break the rule, and bins of a wrong size. The Rust runs each command on a copy of its
//! tables; it knows no such refusals, so that 3 and 8 are told from what the copy then holds, 2 of a name and 13 from how the line was made.
use crate::commands::{after, line, naming, number, run, word, CHANNELS};
use crate::rng::Rng;
use std::collections::BTreeMap;
use std::process::ExitCode;
use theirs::osc::Osc;
use theirs::tables::{Command, Item, Play, Tables};

/// Tables and what was given to them: the text, and what each call has to answer.
struct Bench {
    tables: Tables,
    shapes: Vec<&'static str>,
    /// No two pulses start at one time.
    slot: u32,
    text: String,
    adding: String,
    answers: Vec<String>,
    ends: Vec<String>,
}

/// A ninth and a tenth.
const MORE: [&str; 2] = ["ninth", "0"];
const SHAPES: [&str; 10] = ["h", "i", "j", "k", "l", "m", "n", "o", "p", "hann"];
const HUGE: f64 = 1.7e308;

pub fn compare(seeds: u64, program: &[String]) -> ExitCode {
    let mut ends: BTreeMap<String, u64> = BTreeMap::new();
    let (mut calls, mut different) = (0u64, 0u64);
    for seed in 1..=seeds {
        let mut rng = Rng::new(seed);
        let mut benches: Vec<Bench> = (0..15).map(|_| some_calls(&mut rng)).collect();
        benches.push(full_pulses(&mut rng));
        benches.push(full_bins(&mut rng));
        let text: String = benches.iter().map(|bench| bench.text.as_str()).collect();
        let answers: Vec<&String> = benches.iter().flat_map(|bench| &bench.answers).collect();
        let ours = run(program, &text);
        assert_eq!(ours.len(), answers.len(), "an answer for each call");
        for end in benches.iter().flat_map(|bench| &bench.ends) {
            *ends.entry(end.clone()).or_default() += 1;
        }
        for (ours, theirs) in ours.iter().zip(answers) {
            calls += 1;
            if ours != theirs {
                different += 1;
                if different <= 3 {
                    println!("different, seed {seed}: ours\n{ours}theirs\n{theirs}");
                }
            }
        }
    }
    for (end, count) in &ends {
        println!("  {end:40} {count:>9}");
    }
    println!("{calls} calls on tables that stay, {different} different");
    ExitCode::from(u8::from(different > 0))
}

/// Some calls and what each has to answer, for the program's stored run: the text, or the answers.
pub fn stored(answers: bool) {
    let mut rng = Rng::new(1000);
    for _ in 0..10 {
        let bench = some_calls(&mut rng);
        let told = bench.answers.concat();
        print!("{}", if answers { told } else { bench.text });
    }
}

/// A few channels and shapes, then calls of some commands, with more added and replaced between them.
fn some_calls(rng: &mut Rng) -> Bench {
    let mut bench = Bench::new(rng);
    let channels = 1 + rng.below(8) as usize;
    for name in &CHANNELS[..channels] {
        let osc = [0; 3].map(|_| number(rng));
        bench.add_channel(name, osc);
    }
    for name in &SHAPES[..rng.below(9) as usize] {
        bench.add_shape(name);
    }
    for _ in 0..2 + rng.below(5) {
        for _ in 0..rng.below(4) {
            bench.add(rng);
        }
        let many = rng.below(25);
        let commands: Vec<Command> = (0..many).map(|_| command(rng, channels)).collect();
        bench.call(rng, &commands, 40);
    }
    bench
}

/// 1,020 pulses in one channel, in two calls, then some more.
fn full_pulses(rng: &mut Rng) -> Bench {
    let mut bench = Bench::new(rng);
    bench.add_channel(CHANNELS[0], [0.0; 3]);
    bench.add_channel(CHANNELS[1], [0.0; 3]);
    for many in [700, 320] {
        let plays: Vec<Command> = (0..many).map(|_| plain(rng, CHANNELS[0], 2)).collect();
        bench.call_all(&plays);
    }
    for _ in 0..4 {
        if rng.below(8) == 0 {
            bench.add_channel(CHANNELS[0], [0.0; 3]);
        }
        let plays: Vec<Command> = (0..4)
            .map(|_| {
                let other = usize::from(rng.below(4) == 0);
                plain(rng, CHANNELS[other], 2)
            })
            .collect();
        bench.call(rng, &plays, 1000);
    }
    bench
}

/// 62 bins in one channel, then pulses into these and into others.
fn full_bins(rng: &mut Rng) -> Bench {
    let mut bench = Bench::new(rng);
    bench.add_channel(CHANNELS[2], [0.0; 3]);
    let plays: Vec<Command> = (0..62).map(|k| sized(rng, CHANNELS[2], k)).collect();
    bench.call_all(&plays);
    for _ in 0..4 {
        let plays: Vec<Command> = (0..4)
            .map(|_| {
                let size = rng.below(75);
                sized(rng, CHANNELS[2], size)
            })
            .collect();
        bench.call(rng, &plays, 1000);
    }
    bench
}

impl Bench {
    fn new(rng: &mut Rng) -> Self {
        let amp = [0.0, 0.125][rng.below(2) as usize];
        let tolerance = [0.0, 0.015625][rng.below(2) as usize];
        let oversize = rng.below(2) == 0;
        Self {
            tables: Tables::new(amp, tolerance, oversize).expect("tables"),
            shapes: Vec::new(),
            slot: 0,
            text: format!(
                "t{}{} {:016x}\n",
                word(amp),
                word(tolerance),
                u64::from(oversize)
            ),
            adding: String::new(),
            answers: Vec::new(),
            ends: Vec::new(),
        }
    }

    /// A channel or a shape, new or known, now and then under a bad name.
    fn add(&mut self, rng: &mut Rng) {
        let odd = rng.below(12) == 0;
        if rng.below(2) == 0 {
            let name = SHAPES[rng.below(10) as usize];
            if odd {
                self.text += &format!("s{}\n", spoilt(rng, name));
                return self.refused(2);
            }
            return self.add_shape(name);
        }
        let at = rng.below(10) as usize;
        let name = if at < 8 { CHANNELS[at] } else { MORE[at - 8] };
        let base = [HUGE, number(rng)][rng.below(2) as usize];
        let osc = [base, large(rng), large(rng)];
        if odd {
            self.text += &format!("c{}{}\n", spoilt(rng, name), osc.map(word).concat());
            return self.refused(2);
        }
        self.add_channel(name, osc);
    }

    fn add_shape(&mut self, name: &'static str) {
        self.text += &format!("s{}\n", naming(name));
        if self.shapes.contains(&name) {
            return;
        }
        if self.shapes.len() == 8 {
            return self.refused(3);
        }
        self.shapes.push(name);
        self.tables.add_hann(name);
    }

    fn add_channel(&mut self, name: &str, osc: [f64; 3]) {
        self.text += &format!("c{}{}\n", naming(name), osc.map(word).concat());
        let states = self.tables.states();
        if states.len() == 8 && states.iter().all(|(known, _)| known != name) {
            return self.refused(3);
        }
        let [base, delta, phase] = osc;
        let osc = Osc { base, delta, phase };
        self.tables.add_channel(name, osc).expect("a channel");
    }

    fn refused(&mut self, number: u8) {
        self.adding += &format!("a {number:016x}\n");
        self.ends.push(format!("an addition refused by {number}"));
    }

    /// Commands that nothing refuses.
    fn call_all(&mut self, commands: &[Command]) {
        let mut items = Vec::new();
        for command in commands {
            let (item, line) = self.item(command);
            self.text += &line;
            items.push(item);
        }
        assert_eq!(self.tables.execute(&items), (items.len(), None));
        self.end("x", 0, items.len());
    }

    /// One in `odd` names breaks the rule.
    fn call(&mut self, rng: &mut Rng, commands: &[Command], odd: u64) {
        let (mut ran, mut why) = (0, 0);
        for command in commands {
            let (item, line) = self.item(command);
            let (line, bad) = spoil(rng, line, odd);
            self.text += &line;
            if why == 0 {
                why = if bad { 2 } else { self.step(command, item) };
                ran += usize::from(why == 0);
            }
        }
        self.end("x", why, ran);
        if rng.below(10) == 0 {
            self.end("X", 13, 0);
        }
    }

    /// The Rust's item and its line, at a time of its own.
    fn item(&mut self, command: &Command) -> (Item, String) {
        let start = f64::from(self.slot) * 0.125 - 2.0;
        self.slot += 1;
        let item = Item::new(command, start, 8.0).expect("an item");
        (item, line(command, start, 8.0))
    }

    /// Runs a command where nothing refuses it; else answers the number and leaves the tables.
    fn step(&mut self, command: &Command, item: Item) -> u8 {
        let mut after = self.tables.clone();
        if let (_, Some(refusal)) = after.execute(&[item]) {
            return refusal.number.expect("a number");
        }
        let mut fine = all_finite(&after);
        if let Command::Play(play) = command {
            // One that stores nothing is judged by 8 for its bin, which one of size 1 would store.
            let one = Play {
                amplitude: 1.0,
                drag: 0.0,
                phase: 0.0,
                ..*play
            };
            let mut other = self.tables.clone();
            let item = Item::new(&Command::Play(one), 0.0, 8.0).expect("an item");
            fine &= other.execute(&[item]).1.is_none() && all_finite(&other);
        }
        if !fine {
            return 8;
        }
        if over(&after) {
            return 3;
        }
        self.tables = after;
        0
    }

    fn end(&mut self, letter: &str, number: u8, ran: usize) {
        self.text += &format!("{letter}\n");
        let lines = after(&self.tables).expect("not over the sizes");
        let adding = std::mem::take(&mut self.adding);
        self.answers
            .push(format!("{adding}x {number:016x} {ran:016x}\n{lines}"));
        self.ends.push(match number {
            0 => "a call done".to_string(),
            _ => format!("a call refused by {number}"),
        });
    }
}

fn all_finite(tables: &Tables) -> bool {
    let lists = tables.lists().expect("lists");
    tables.states().iter().all(|(name, osc)| {
        let bins = lists.bins(name).expect("a list");
        let numbers = bins.iter().flat_map(|bin| {
            let pulses = bin.pulses.iter();
            let pulses = pulses.flat_map(|p| [p.amp[0], p.amp[1], p.drag[0], p.drag[1]]);
            pulses.chain([bin.width, bin.plateau, bin.global, bin.local])
        });
        numbers
            .chain([osc.base, osc.delta, osc.phase])
            .all(f64::is_finite)
    })
}

/// Whether a channel has over 64 bins or 1,024 pulses.
fn over(tables: &Tables) -> bool {
    after(tables).is_none()
}

fn command(rng: &mut Rng, channels: usize) -> Command<'static> {
    let name = named(rng, channels);
    match rng.below(12) {
        0 | 1 => Command::ShiftPhase(name, large(rng)),
        2 => Command::SetPhase(name, large(rng)),
        3 => Command::ShiftFreq(name, large(rng)),
        4 => Command::SetFreq(name, large(rng)),
        5 => Command::SwapPhase(name, named(rng, channels)),
        6 => Command::Barrier,
        _ => plain(rng, name, 12),
    }
}

fn named(rng: &mut Rng, channels: usize) -> &'static str {
    let among = if rng.below(40) == 0 { 8 } else { channels };
    CHANNELS[rng.below(among as u64) as usize]
}

/// A play; one in `odd` has a number that is near the largest double.
fn plain(rng: &mut Rng, channel: &'static str, odd: u64) -> Command<'static> {
    let pick = rng.below(odd * 4);
    let or_huge = |at: u64, x: f64| if odd > 2 && pick == at { HUGE } else { x };
    Command::Play(Play {
        channel,
        shape: SHAPES[..8]
            .get(rng.below(60) as usize)
            .copied()
            .filter(|_| odd > 2),
        amplitude: or_huge(
            0,
            [0.5, -1.0, 0.1 + f64::from(odd <= 2), 0.25][rng.below(4) as usize],
        ),
        width: or_huge(1, [1.0, 2.0][rng.below(2) as usize]),
        plateau: or_huge(1, [0.0, 1.0][rng.below(2) as usize]),
        drag: or_huge(2, 4.0),
        frequency: 0.25,
        phase: or_huge(3, rng.sample()),
        flexible: false,
    })
}

fn sized(rng: &mut Rng, channel: &'static str, size: u64) -> Command<'static> {
    Command::Play(Play {
        channel,
        shape: None,
        amplitude: 0.5,
        width: 0.0,
        plateau: size as f64 / 16.0,
        drag: 0.0,
        frequency: 0.0,
        phase: rng.sample(),
        flexible: false,
    })
}

/// A number, now and then one near the largest double.
fn large(rng: &mut Rng) -> f64 {
    match rng.below(12) {
        0 => [HUGE, -HUGE][rng.below(2) as usize],
        _ => number(rng),
    }
}

/// The line with one of its names spoilt, one time in `odd`; and whether 2 reads that name.
fn spoil(rng: &mut Rng, line: String, odd: u64) -> (String, bool) {
    if rng.below(odd) != 0 {
        return (line, false);
    }
    let words: Vec<&str> = line.trim_end().split(' ').collect();
    // Its letter, a start and a span stand before a name.
    let (at, read) = match (words[0], rng.below(2)) {
        ("b", _) => return (line.clone(), false),
        ("p", 0) => (7, words[6].ends_with('1')),
        ("w", 0) => (6, true),
        _ => (3, true),
    };
    let spoilt = spoilt(rng, "name");
    let words = [&words[..at], &[spoilt.trim_start()], &words[at + 3..]].concat();
    (words.join(" ") + "\n", read)
}

/// A name's three numbers, of which one breaks the rule.
fn spoilt(rng: &mut Rng, name: &str) -> String {
    let mut bytes = [0; 16];
    bytes[..name.len()].copy_from_slice(name.as_bytes());
    let mut len = name.len() as u64;
    match rng.below(6) {
        0 => len = 0,
        1 => len = 17 + rng.below(3),
        2 => len += 1,
        3 => len -= 1,
        4 if len < 16 => bytes[15] = b'a',
        _ => bytes[0] = [b'=', b' ', 0x7f, 0, 0xff, b'\n'][rng.below(6) as usize],
    }
    let half = |at: usize| u64::from_le_bytes(bytes[at..at + 8].try_into().expect("eight"));
    format!(" {:016x} {:016x} {len:016x}", half(0), half(8))
}
