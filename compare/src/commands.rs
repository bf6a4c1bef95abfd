//! The command call beside the test copy's: lists of commands by chance, run by the program `replay_calls` and by the Rust. Written as
//! the program reads and prints them (crates/command_lines/src/lib.rt). Numbers stay finite, and no two pulses start at one time.
use crate::rng::Rng;
use std::collections::BTreeMap;
use std::io::Write;
use std::process::{Command as Process, ExitCode, Stdio};
use theirs::osc::Osc;
use theirs::tables::{Command, Item, Play, Tables};

/// A list as text, what the Rust makes of it, and how it ended there.
struct Case {
    text: String,
    told: Told,
    end: String,
    kinds: Vec<&'static str>,
}

enum Told {
    Lines(String),
    /// A plateau below 0 that the Rust refuses when the command is made: document 01 has 4, 5 or 6. The place and the lines that follow.
    BelowZero(usize, String),
    /// Over document 01's sizes.
    Outside,
}

pub(crate) const CHANNELS: [&str; 8] = [
    "q0",
    "q1",
    "q10",
    "abcdefgh",
    "abcdefghi",
    "~",
    "a_name_of_16_byt",
    "Q1",
];
const SHAPES: [&str; 3] = ["hann", "h", "long_shape_name"];

/// `program` is what runs `replay_calls`, word by word.
pub fn compare(seeds: u64, program: &[String]) -> ExitCode {
    let mut ends: BTreeMap<String, u64> = BTreeMap::new();
    let mut kinds: BTreeMap<&str, u64> = BTreeMap::new();
    let (mut lists, mut records, mut different) = (0, 0, 0u64);
    for seed in 1..=seeds {
        let mut rng = Rng::new(seed);
        let cases: Vec<Case> = (0..100).map(|k| case(&mut rng, k)).collect();
        let text: String = cases.iter().map(|case| case.text.as_str()).collect();
        let ours = run(program, &text);
        assert_eq!(ours.len(), cases.len(), "an answer for each list");
        for (case, ours) in cases.iter().zip(&ours) {
            lists += 1;
            records += ours.lines().filter(|line| line.starts_with('r')).count();
            *ends.entry(case.end.clone()).or_default() += 1;
            for kind in &case.kinds {
                *kinds.entry(kind).or_default() += 1;
            }
            if !agrees(&case.told, ours) {
                different += 1;
                if different <= 3 {
                    println!("different, seed {seed}:\n{}ours\n{ours}", case.text);
                    if let Told::Lines(lines) = &case.told {
                        println!("theirs\n{lines}");
                    }
                }
            }
        }
    }
    for (kind, count) in &kinds {
        println!("  {kind:20} {count:>9}");
    }
    for (end, count) in &ends {
        println!("  {end:40} {count:>9}");
    }
    println!("{lists} lists, {records} pulses stored, {different} different");
    ExitCode::from(u8::from(different > 0))
}

/// Some lists and the Rust's answers, for the program's stored run: the lists, or the answers.
pub fn stored(answers: bool) {
    let mut rng = Rng::new(1000);
    let cases = (0..400).map(|k| case(&mut rng, k % 40));
    let told = cases.filter_map(|case| match case.told {
        Told::Lines(lines) => Some((case.text, lines)),
        _ => None,
    });
    for (text, lines) in told.take(60) {
        print!("{}", if answers { lines } else { text });
    }
}

fn agrees(told: &Told, ours: &str) -> bool {
    match told {
        Told::Lines(lines) => lines == ours,
        Told::BelowZero(place, lines) => [4, 5, 6]
            .iter()
            .any(|number| ours == format!("x {number:016x} {place:016x}\n{lines}")),
        Told::Outside => true,
    }
}

/// What the program prints for a text.
pub(crate) fn output(program: &[String], text: &str) -> String {
    let mut program = Process::new(&program[0])
        .args(&program[1..])
        .stdin(Stdio::piped())
        .stdout(Stdio::piped())
        .spawn()
        .expect("the program");
    let mut stdin = program.stdin.take().expect("a pipe");
    let text = text.to_string();
    let writing = std::thread::spawn(move || stdin.write_all(text.as_bytes()).expect("written"));
    let output = program.wait_with_output().expect("an end");
    writing.join().expect("written");
    assert!(output.status.success(), "{:?}", output.status);
    String::from_utf8(output.stdout).expect("text")
}

/// What the program prints, cut before each line `x` and the lines `a` that stand before it.
pub(crate) fn run(program: &[String], text: &str) -> Vec<String> {
    let mut answers: Vec<String> = Vec::new();
    let mut adding = false;
    for line in output(program, text).lines() {
        if line.starts_with(['a', 'x']) && !adding {
            answers.push(String::new());
        }
        adding = line.starts_with('a');
        let answer = answers.last_mut().expect("an answer first");
        answer.push_str(line);
        answer.push('\n');
    }
    answers
}

fn case(rng: &mut Rng, k: u64) -> Case {
    let amp = [0.0, 0.0, 0.125, 1e-3][rng.below(4) as usize];
    let tolerance = [0.0, 0.0, 0.015625][rng.below(3) as usize];
    let oversize = rng.below(3) == 0;
    let mut text = format!(
        "t{}{} {:016x}\n",
        word(amp),
        word(tolerance),
        u64::from(oversize)
    );
    let mut tables = Tables::new(amp, tolerance, oversize).expect("tables");
    let channels = 1 + rng.below(8) as usize;
    for name in &CHANNELS[..channels] {
        let osc = Osc {
            base: number(rng),
            delta: number(rng),
            phase: number(rng),
        };
        text += &format!(
            "c{}{}{}{}\n",
            naming(name),
            word(osc.base),
            word(osc.delta),
            word(osc.phase)
        );
        tables.add_channel(name, osc).expect("a channel");
    }
    for name in &SHAPES[..2] {
        text += &format!("s{}\n", naming(name));
        tables.add_hann(name);
    }
    let many = if k % 50 == 49 { 300 } else { 1 + rng.below(40) };
    let mut slots: Vec<u64> = (0..many).collect();
    for i in (1..slots.len()).rev() {
        slots.swap(i, rng.below(i as u64 + 1) as usize);
    }
    let (mut items, mut unmade, mut kinds) = (Vec::new(), None, Vec::new());
    let sizes = [number(rng).abs(), 0.5, 0.0];
    for (place, slot) in slots.iter().enumerate() {
        let start = *slot as f64 * 0.125 - 2.0 + rng.sample() / 32.0;
        let (command, span) = command(rng, channels, &sizes, amp, many > 40);
        kinds.push(letter(&command).1);
        text += &line(&command, start, span);
        if unmade.is_none() {
            match Item::new(&command, start, span) {
                Ok(item) => items.push(item),
                Err(refusal) => unmade = Some((place, refusal)),
            }
        }
    }
    text += "x\n";
    let (mut run, mut refusal) = tables.execute(&items);
    if let (None, Some((place, why))) = (&refusal, unmade) {
        (run, refusal) = (place, Some(why));
    }
    kinds.truncate(run);
    let (number, end) = match &refusal {
        None => (Some(0), "done".to_string()),
        Some(why) => match why.number {
            Some(number) => (Some(number), format!("refused by {number}")),
            None => (
                None,
                format!("unmade: {}", &why.text[..why.text.len().min(15)]),
            ),
        },
    };
    let told = match (number, after(&tables)) {
        (_, None) => Told::Outside,
        (None, Some(lines)) => Told::BelowZero(run, lines),
        (Some(number), Some(lines)) => Told::Lines(format!("x {number:016x} {run:016x}\n{lines}")),
    };
    let end = if matches!(told, Told::Outside) {
        "over 64 bins, not compared".to_string()
    } else {
        end
    };
    Case {
        text,
        told,
        end,
        kinds,
    }
}

/// Every channel with its bins and pulses. None where a channel has over 64 bins.
pub fn after(tables: &Tables) -> Option<String> {
    let lists = tables.lists().expect("lists");
    let mut text = String::new();
    for (name, osc) in tables.states() {
        let bins = lists.bins(&name).expect("a list");
        let pulses: usize = bins.iter().map(|bin| bin.pulses.len()).sum();
        if bins.len() > 64 || pulses > 1024 {
            return None;
        }
        text += &format!(
            "c{}{}{} {:016x} {pulses:016x}\n",
            word(osc.base),
            word(osc.delta),
            word(osc.phase),
            bins.len()
        );
        for bin in &bins {
            let shape = if bin.hann { 1.0 } else { 0.0 };
            let row = [shape, bin.width, bin.plateau, bin.global, bin.local];
            text += &format!("b{}\n", row.map(word).concat());
        }
        for (place, bin) in bins.iter().enumerate() {
            for p in &bin.pulses {
                let row = [p.time, p.amp[0], p.amp[1], p.drag[0], p.drag[1]];
                text += &format!("r {place:016x}{}\n", row.map(word).concat());
            }
        }
    }
    Some(text)
}

fn command(
    rng: &mut Rng,
    channels: usize,
    sizes: &[f64; 3],
    amp: f64,
    long: bool,
) -> (Command<'static>, f64) {
    let odd = if long { 2000 } else { 60 };
    let name = named(rng, channels, odd);
    let span = match rng.below(odd) {
        0 => -0.25,
        _ => [0.0, 0.25, 8.0, number(rng).abs()][rng.below(4) as usize],
    };
    // In a long list frequencies stay, so that its bins are few.
    let kind = if long { rng.below(12) } else { rng.below(16) };
    let by = number(rng);
    match kind {
        0 | 1 => (Command::ShiftPhase(name, odd_number(rng, by, odd)), span),
        2 => (Command::SetPhase(name, odd_number(rng, by, odd)), span),
        3 => (Command::SwapPhase(name, named(rng, channels, odd)), span),
        4 => (Command::Barrier, span),
        12 => (Command::ShiftFreq(name, odd_number(rng, by, odd)), span),
        13 => (Command::SetFreq(name, odd_number(rng, by, odd)), span),
        _ => play(rng, name, sizes, amp, odd),
    }
}

fn play(
    rng: &mut Rng,
    channel: &'static str,
    sizes: &[f64; 3],
    amp: f64,
    odd: u64,
) -> (Command<'static>, f64) {
    let shape = match rng.below(odd) {
        0 => Some(SHAPES[2]),
        n if n % 3 == 0 => None,
        n => Some(SHAPES[(n % 2) as usize]),
    };
    let width = sizes[rng.below(3) as usize];
    let flexible = rng.below(2) == 0;
    let plateau = match rng.below(odd) {
        0 => -0.5,
        1 => -0.0,
        _ => sizes[rng.below(3) as usize],
    };
    let required = if flexible { width } else { width + plateau };
    let span = match rng.below(odd) {
        0 => required - 0.25,
        1 => required - 0.0078125,
        n if n % 3 == 0 => required,
        _ => required + 1.0,
    };
    let small = [0.0, -0.0, amp, -amp, amp * 1.5];
    let amplitude = match rng.below(4) {
        0 => small[rng.below(5) as usize],
        _ => number(rng),
    };
    let play = Play {
        channel,
        shape,
        amplitude: odd_number(rng, amplitude, odd * 4),
        width: if rng.below(odd * 4) == 0 { -1.0 } else { width },
        plateau,
        drag: if rng.below(3) == 0 { 0.0 } else { number(rng) },
        frequency: [0.0, -0.0, 1.0, 0.25][rng.below(4) as usize],
        phase: number(rng),
        flexible,
    };
    (Command::Play(play), span)
}

/// A channel's name, that of a channel of the list but for one time in many.
fn named(rng: &mut Rng, channels: usize, odd: u64) -> &'static str {
    if rng.below(odd) == 0 {
        return CHANNELS[rng.below(8) as usize];
    }
    CHANNELS[rng.below(channels as u64) as usize]
}

fn odd_number(rng: &mut Rng, number: f64, odd: u64) -> f64 {
    if rng.below(odd * 2) == 0 {
        return f64::INFINITY;
    }
    number
}

/// Quarters, samples, a bench's frequencies, any size about 1, zeros.
pub fn number(rng: &mut Rng) -> f64 {
    match rng.below(6) {
        0 => rng.within(-40, 40) as f64 / 4.0,
        1 | 2 => rng.sample(),
        3 => rng.within(-80, 80) as f64 * 1e5 + rng.sample(),
        4 => {
            let field = 1023 + rng.within(-30, 20);
            rng.in_field(field)
        }
        _ => [0.0, -0.0][rng.below(2) as usize],
    }
}

pub(crate) fn word(x: f64) -> String {
    format!(" {:016x}", x.to_bits())
}

pub(crate) fn naming(name: &str) -> String {
    let mut bytes = [0; 16];
    bytes[..name.len()].copy_from_slice(name.as_bytes());
    let half = |at: usize| u64::from_le_bytes(bytes[at..at + 8].try_into().expect("eight"));
    format!(" {:016x} {:016x} {:016x}", half(0), half(8), name.len())
}

fn letter(command: &Command) -> (char, &'static str) {
    match command {
        Command::Play(_) => ('p', "Play"),
        Command::ShiftPhase(..) => ('h', "ShiftPhase"),
        Command::SetPhase(..) => ('H', "SetPhase"),
        Command::ShiftFreq(..) => ('f', "ShiftFreq"),
        Command::SetFreq(..) => ('F', "SetFreq"),
        Command::SwapPhase(..) => ('w', "SwapPhase"),
        Command::Barrier => ('b', "Barrier"),
    }
}

/// In the order in which lines have them.
pub(crate) fn numbers_of(p: &Play) -> [f64; 6] {
    [
        p.amplitude,
        p.width,
        p.plateau,
        p.drag,
        p.frequency,
        p.phase,
    ]
}

pub(crate) fn line(command: &Command, start: f64, span: f64) -> String {
    let rest = match *command {
        Command::Play(p) => {
            let shape = p.shape.map_or(" 0000000000000000".repeat(3), naming);
            let numbers = numbers_of(&p);
            let (shaped, flexible) = (u64::from(p.shape.is_some()), u64::from(p.flexible));
            let channel = naming(p.channel);
            format!(
                "{channel} {shaped:016x}{shape}{} {flexible:016x}",
                numbers.map(word).concat()
            )
        }
        Command::ShiftPhase(name, x)
        | Command::SetPhase(name, x)
        | Command::ShiftFreq(name, x)
        | Command::SetFreq(name, x) => naming(name) + &word(x),
        Command::SwapPhase(a, b) => naming(a) + &naming(b),
        Command::Barrier => String::new(),
    };
    format!("{}{}{}{rest}\n", letter(command).0, word(start), word(span))
}
