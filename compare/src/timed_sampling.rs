//! The sampling call timed beside the Rust's, onto two rows; and how its time grows with samples and pulses.
use crate::commands::{naming, word};
use crate::timed::{answers, bench, head, line_of, nowhere, ours, row, Timed, CHANNELS, COMMANDS};
use theirs::lists::{Channel, Crosstalk};
use theirs::tables::{Command, Item, Play};

/// Samplings timed beside the Rust's, onto two rows of 65,536 samples at a rate of 1: nanoseconds a sample that a pulse was added onto, or, of
/// the merging, a pulse. Ours reads and runs the commands before it samples, and each of its samplings takes the pulses by value and makes its
/// rows: the same with one sampling, and the same samplings of no pulse, are taken off, and the second is printed. Ours samples onto rows that
/// it filled just before, the Rust onto rows that it read just before. The Rust keeps envelopes from call to call; where one is to be worked
/// out anew, its width is another in every call.
pub fn sampling() {
    println!(
        "{:44} {:>8} {:>8} {:>8}",
        "nanoseconds a sample of two rows", "ours", "Rust", "ratio"
    );
    for (name, shaped, many, each) in [
        ("plateau, 1 pulse of 65,000", false, 1, 65000.0),
        ("plateau, 64 pulses of 1,000", false, 64, 1000.0),
        ("plateau, 1,024 pulses of 60", false, 1024, 60.0),
        ("Hann with drag, 64 equal pulses of 1,000", true, 64, 1000.0),
        ("Hann with drag, 1,024 equal pulses of 60", true, 1024, 60.0),
    ] {
        let (width, plateau) = if shaped { (each, 0.0) } else { (0.0, each) };
        let samples = many as f64 * each;
        let [ours, theirs, _] = sampled(&one(width, plateau, shaped, many), None);
        row(name, ours / samples, theirs / samples);
    }
    let mut best = [f64::INFINITY; 5];
    for k in 0..24 {
        let times = samplings(
            &one(65000.0 + f64::from(k) * 0.01, 0.0, true, 1),
            None,
            1,
            1,
        );
        best = std::array::from_fn(|k| times[k].min(best[k]));
    }
    let [ours, theirs, empty] = parted(best, 1);
    row(
        "Hann with drag, 1 pulse of 65,000, anew",
        ours / 65000.0,
        theirs / 65000.0,
    );
    println!(
        "a call that adds nothing: {empty:.0} nanoseconds, the rows' filling and the pulses' copy"
    );
    println!(
        "{:44} {:>8} {:>8} {:>8}",
        "nanoseconds a pulse, full matrix", "ours", "Rust", "ratio"
    );
    let factors: Vec<f64> = (0..64)
        .map(|k| if k % 9 == 0 { 1.0 } else { 0.01 * k as f64 })
        .collect();
    for each in [128, 1024] {
        for (name, width, bins) in [
            ("no samples", 0.0, 1),
            ("Hann of 16 samples", 16.0, 1),
            ("Hann, in 8 bins", 16.0, 8),
        ] {
            let list = eight(each, width, bins);
            let [ours, theirs, _] = sampled(&list, Some(&factors));
            let [ours, theirs] = [ours, theirs].map(|time| time / list.len() as f64);
            row(&format!("8 lists of {each}, {name}"), ours, theirs);
        }
    }
}

/// As many pulses in each of the eight channels, seven samples apart.
fn eight(each: usize, width: f64, bins: usize) -> Vec<Timed> {
    (0..8 * each)
        .map(|k| {
            let width = width + (k / 8 % bins) as f64;
            let at = k as f64 * 7.0 + 0.5 * (k % 3) as f64;
            let play = pulse(CHANNELS[k % 8], width > 0.0, width, 0.0, 0.01);
            (play, at, 65536.0)
        })
        .collect()
}

fn pulse(
    channel: &'static str,
    shaped: bool,
    width: f64,
    plateau: f64,
    frequency: f64,
) -> Command<'static> {
    Command::Play(Play {
        channel,
        shape: shaped.then_some("hann"),
        amplitude: 0.5,
        width,
        plateau,
        drag: 0.5,
        frequency,
        phase: 0.125,
        flexible: false,
    })
}

/// So many equal pulses, one behind another.
fn one(width: f64, plateau: f64, shaped: bool, many: usize) -> Vec<Timed> {
    let step = (65000.0 / many as f64).floor();
    (0..many)
        .map(|k| {
            let play = pulse("q0", shaped, width, plateau, 0.01);
            (play, k as f64 * step, 65536.0)
        })
        .collect()
}

/// How a call's time grows: with the samples of one pulse, with the pulses of one list, with the pulses of eight lists merged.
pub fn growth() {
    println!(
        "{:44} {:>8} {:>8} {:>8}",
        "nanoseconds a sample, or a pulse", "ours", "Rust", "ratio"
    );
    for samples in [4000, 8000, 16000, 32000, 64000] {
        let [ours, theirs, _] = sampled(&one(0.0, f64::from(samples), false, 1), None);
        let [ours, theirs] = [ours, theirs].map(|time| time / f64::from(samples));
        row(&format!("plateau of {samples}, a sample"), ours, theirs);
    }
    for pulses in [64, 128, 256, 512, 1024] {
        let [ours, theirs, _] = sampled(&one(60.0, 0.0, true, pulses), None);
        let [ours, theirs] = [ours, theirs].map(|time| time / pulses as f64);
        row(&format!("{pulses} times Hann of 60, a pulse"), ours, theirs);
    }
    let factors: Vec<f64> = (0..64).map(|k| 0.01 * f64::from(k + 1)).collect();
    for each in [16, 32, 64, 128, 256, 512, 1024] {
        let list = eight(each, 16.0, 1);
        let [ours, theirs, _] = sampled(&list, Some(&factors));
        let pulses = list.len();
        let [ours, theirs] = [ours, theirs].map(|time| time / pulses as f64);
        row(
            &format!("8 lists, {pulses} pulses merged, a pulse"),
            ours,
            theirs,
        );
    }
}

/// Nanoseconds of one sampling of `q0`: ours, the Rust's, and ours of no pulse.
fn sampled(list: &[Timed], factors: Option<&[f64]>) -> [f64; 3] {
    let many = 8;
    parted(samplings(list, factors, many, 40), many)
}

fn parted([all, one, none, none_once, theirs]: [f64; 5], calls: usize) -> [f64; 3] {
    let calls = calls as f64;
    let empty = (none - none_once) / calls;
    [(all - one) / calls - empty, theirs / calls, empty]
}

/// Nanoseconds of one sampling more than `many`, of one, of as many of no pulse, and of the Rust's `many`: the best of several runs that take turns.
fn samplings(list: &[Timed], factors: Option<&[f64]>, many: usize, runs: usize) -> [f64; 5] {
    let items: Vec<Item> = list
        .iter()
        .map(|(command, start, span)| Item::new(command, *start, *span).expect("an item"))
        .collect();
    let mut tables = bench();
    for items in items.chunks(COMMANDS) {
        assert!(tables.run(items), "all were run");
    }
    let lists = tables.into_lists();
    let of = Channel {
        name: "q0",
        rate: 1.0,
        delay: 0.0,
        level: 0,
    };
    let crosstalk = factors.map(|factors| Crosstalk {
        names: &CHANNELS,
        factors,
    });
    let texts = [
        given(list, factors, 1 + many),
        given(list, factors, 1),
        given(&[], factors, 1 + many),
        given(&[], factors, 1),
    ];
    let nowhere = nowhere();
    let mut best = [f64::INFINITY; 5];
    let mut rows = vec![0.0; 131072];
    for _ in 0..runs {
        let [a, b, c, d] = [0, 1, 2, 3].map(|k| ours(&texts[k], &nowhere));
        let theirs = lists.time(&of, crosstalk.as_ref(), &mut rows, many);
        let times = [a, b, c, d, theirs];
        best = std::array::from_fn(|k| times[k].min(best[k]));
    }
    best
}

/// The commands in calls of COMMANDS, and so many samplings of `q0` onto two rows of 65,536, of which no sample is printed.
fn given(list: &[Timed], factors: Option<&[f64]>, many: usize) -> String {
    let mut text = head();
    for part in list.chunks(COMMANDS) {
        text.extend(part.iter().map(line_of));
        text += "r\n";
    }
    if let Some(factors) = factors {
        text.extend(CHANNELS.map(|name| format!("n{}\n", naming(name))));
        text.extend(factors.iter().map(|x| format!("v{}\n", word(*x))));
    }
    let sizes = [30, 2, 65536, 65536, 65536].map(|n| format!(" {n:016x}"));
    let settings = [word(1.0), word(0.0), sizes.concat(), word(0.0).repeat(2)];
    let sampling = format!("m{}{} {:016x}\n", naming("q0"), settings.concat(), 65536);
    text += &sampling.repeat(many);
    let told = answers(&text);
    let done = format!("m {:016x} ", 0);
    let counts: Vec<&str> = told
        .lines()
        .filter_map(|line| line.strip_prefix(&done))
        .collect();
    let none = format!("{:016x}", 0);
    assert_eq!(counts.len(), many, "all were sampled");
    assert!(
        counts
            .iter()
            .all(|count| (*count == none) == list.is_empty()),
        "pulses were added"
    );
    text
}
