//! The sampling call beside the test copy's: jobs by chance, run by the program `replay_calls` and by the Rust. Written as the program
//! reads and prints them (crates/command_lines/src/lib.rt). Half of the jobs have one bin in all, so that no order of bins matters.
use crate::commands::{line, naming, run, word, CHANNELS};
use crate::rng::Rng;
use std::collections::BTreeMap;
use std::process::ExitCode;
use theirs::lists::{Channel, Crosstalk, Lists};
use theirs::osc::Osc;
use theirs::tables::{Command, Item, Play, Tables};

/// What is asked for, and whether a number may be so large that one worked out is not finite.
pub(crate) struct Job {
    pub(crate) plays: Vec<(Play<'static>, f64)>,
    pub(crate) oscs: Vec<Osc>,
    pub(crate) tolerances: [f64; 2],
    pub(crate) names: Vec<&'static str>,
    pub(crate) factors: Vec<f64>,
    pub(crate) channel: &'static str,
    pub(crate) rate: f64,
    pub(crate) delay: f64,
    pub(crate) level: i32,
    pub(crate) rows: usize,
    pub(crate) lengths: [usize; 3],
    pub(crate) fill: [f64; 2],
    pub(crate) from: usize,
    pub(crate) wild: bool,
    pub(crate) one_bin: bool,
}

/// What the program has to print, and how it came about.
struct Told {
    lines: String,
    number: usize,
    end: String,
    mixed: usize,
    /// By document 01 no comparison is to be made.
    excluded: Option<&'static str>,
}

/// `program` is what runs `replay_calls`, word by word.
pub fn compare(seeds: u64, program: &[String]) -> ExitCode {
    let mut tally: BTreeMap<String, u64> = BTreeMap::new();
    let mut count = |what: String, by: u64| *tally.entry(what).or_default() += by;
    let (mut compared, mut different) = (0u64, 0u64);
    for seed in 1..=seeds {
        let mut rng = Rng::new(seed);
        let jobs: Vec<Job> = (0..60).map(|k| job(&mut rng, k, 200)).collect();
        let told: Vec<Told> = jobs.iter().map(told).collect();
        let text: String = jobs.iter().map(text).collect();
        let ours = run(program, &text);
        assert_eq!(ours.len(), jobs.len(), "an answer for each job");
        for ((job, told), ours) in jobs.iter().zip(&told).zip(&ours) {
            let equal = *ours == told.lines;
            let not_finite = ours.contains("\nm 0000000000000008 ");
            let excluded = match told.excluded {
                None if not_finite && job.wild => Some("a number not finite (ours refuse by 8)"),
                why => why,
            };
            if let Some(why) = excluded {
                count(format!("excluded: {why}"), 1);
                count(
                    format!("  of these equal all the same: {why}"),
                    u64::from(equal),
                );
                continue;
            }
            compared += 1;
            count(format!("compared: {}", told.end), 1);
            for kind in kinds(job) {
                count(format!("jobs with {kind}"), 1);
            }
            count("pulses mixed".into(), told.mixed as u64);
            let samples = ours.lines().skip(2).map(|row| row.len() / 17);
            count("samples compared".into(), samples.sum::<usize>() as u64);
            if !equal {
                different += 1;
                if different <= 3 {
                    println!("different, seed {seed}:\n{}", crate::sampling::text(job));
                    println!("ours\n{ours}theirs\n{}", told.lines);
                }
            }
        }
    }
    for (what, count) in &tally {
        println!("  {what:70} {count:>9}");
    }
    println!("{compared} jobs compared, {different} different");
    ExitCode::from(u8::from(different > 0))
}

/// Some jobs and the Rust's answers, for the program's stored run: the jobs, or the answers. At most 60 that are sampled, 12 of each refusal.
pub fn stored(answers: bool) {
    let mut rng = Rng::new(1000);
    let mut seen = [0; 24];
    for k in 0..6000 {
        let job = job(&mut rng, k, 12);
        let small = job.plays.len() < 6 && job.oscs.len() < 5 && job.lengths[0] < 40;
        let told = told(&job);
        if !small || job.wild || told.excluded.is_some() {
            continue;
        }
        seen[told.number] += 1;
        if seen[told.number] <= if told.number == 0 { 60 } else { 12 } {
            print!("{}", if answers { told.lines } else { text(&job) });
        }
    }
}

fn told(job: &Job) -> Told {
    let [amp, time] = job.tolerances;
    let mut tables = Tables::new(amp, time, false).expect("tables");
    for (name, osc) in CHANNELS.iter().zip(&job.oscs) {
        tables.add_channel(name, *osc).expect("a channel");
    }
    tables.add_hann("hann");
    tables.add_hann("h");
    let items = job.plays.iter().map(|(play, start)| {
        Item::new(&Command::Play(*play), *start, play.width + play.plateau).expect("a play")
    });
    let (ran, refusal) = tables.execute(&items.collect::<Vec<_>>());
    assert_eq!(refusal, None);
    let head = format!("x {:016x} {ran:016x}\n", 0);
    let (i, q) = (
        vec![job.fill[0]; job.lengths[0]],
        vec![job.fill[1]; job.lengths[1]],
    );
    if let Some((number, place)) = refused_before(job) {
        return Told {
            lines: head + &answer(number, place, &i, &q, job.from),
            number: number.into(),
            end: format!("refused by {number} before any pulse, as the documents say"),
            mixed: 0,
            excluded: None,
        };
    }
    let mut samples = [i, if job.rows == 2 { q } else { Vec::new() }].concat();
    let (mixed, refusal) = sample(&tables.lists().expect("lists"), job, &mut samples);
    let (i, q) = samples.split_at(job.lengths[0]);
    let (number, end, excluded) = match refusal {
        None => (0, format!("sampled, {}", order(job)), None),
        Some((Some(8), _)) => (
            8,
            String::new(),
            Some("a number not finite (the Rust panics)"),
        ),
        Some((Some(number), _)) => (number, format!("refused by {number}, {}", order(job)), None),
        Some((None, text)) => panic!("the Rust ended by {text}"),
    };
    let excluded = excluded.or(same_times(job).then_some("equal times"));
    Told {
        lines: head + &answer(number, mixed, i, q, job.from),
        number: number.into(),
        end,
        mixed,
        excluded,
    }
}

pub(crate) fn sample(
    lists: &Lists,
    job: &Job,
    samples: &mut [f64],
) -> (usize, Option<(Option<u8>, String)>) {
    let channel = Channel {
        name: job.channel,
        rate: job.rate,
        delay: job.delay,
        level: job.level,
    };
    let crosstalk = Crosstalk {
        names: &job.names,
        factors: &job.factors[..job.names.len() * job.names.len()],
    };
    let crosstalk = (!job.names.is_empty()).then_some(&crosstalk);
    let (mixed, sampled) = lists.sample_counted(&channel, crosstalk, samples, job.rows);
    (mixed, sampled.err().map(|why| (why.number, why.text)))
}

fn order(job: &Job) -> &'static str {
    if job.one_bin {
        "one bin"
    } else {
        "bins in order of first push"
    }
}

/// Document 01: "Its order: 1, 13, 2, 14, 7, then each pulse"; document 02, P2: 17 and 18 in place of 14, "names taken in reading order".
pub(crate) fn refused_before(job: &Job) -> Option<(u8, usize)> {
    let [i, q, scratch] = job.lengths;
    let n = job.names.len();
    let finite = [job.rate, 1.0 / job.rate, job.delay]
        .iter()
        .all(|x| x.is_finite());
    let rows = i <= 65536 && (job.rows == 1 && q == 0 || job.rows == 2 && q == i);
    let is_name = |name: &&str| {
        let bytes = name.bytes();
        (1..=16).contains(&name.len())
            && bytes
                .into_iter()
                .all(|b| b != b'=' && (0x21..=0x7e).contains(&b))
    };
    let known = |name: &&str| CHANNELS[..job.oscs.len()].contains(name);
    if !(finite && job.rate > 0.0 && (-20..=20).contains(&job.level)) {
        return Some((1, 0));
    }
    if !rows || scratch < i || n > 8 || job.factors.len() < n * n {
        return Some((13, 0));
    }
    let names = is_name(&job.channel) && job.names.iter().all(|name| is_name(name));
    if !(names && job.factors[..n * n].iter().all(|x| x.is_finite())) {
        return Some((2, 0));
    }
    for (at, name) in job.names.iter().enumerate() {
        if job.names[..at].contains(name) {
            return Some((17, at + 1));
        }
        if !known(name) {
            return Some((18, at + 1));
        }
    }
    (!known(&job.channel)).then_some((7, 0))
}

pub(crate) fn same_times(job: &Job) -> bool {
    let mut times: Vec<f64> = job.plays.iter().map(|(_, start)| *start).collect();
    times.sort_by(f64::total_cmp);
    times.windows(2).any(|two| two[0] == two[1])
}

fn answer(number: u8, place: usize, i: &[f64], q: &[f64], from: usize) -> String {
    format!(
        "m {number:016x} {place:016x}\ni{}\nq{}\n",
        shown(i, from),
        shown(q, from)
    )
}

fn shown(row: &[f64], from: usize) -> String {
    let row = row.iter().skip(from).take(256);
    row.map(|x| {
        word(if x.is_nan() {
            f64::from_bits(0x7ff8 << 48)
        } else {
            *x
        })
    })
    .collect()
}

fn text(job: &Job) -> String {
    let [amp, time] = job.tolerances;
    let mut text = format!("t{}{} {:016x}\n", word(amp), word(time), 0);
    for (name, osc) in CHANNELS.iter().zip(&job.oscs) {
        let numbers = [osc.base, osc.delta, osc.phase].map(word).concat();
        text += &format!("c{}{numbers}\n", naming(name));
    }
    text += &format!("s{}\ns{}\n", naming("hann"), naming("h"));
    for (play, start) in &job.plays {
        text += &line(&Command::Play(*play), *start, play.width + play.plateau);
    }
    text += "r\n";
    for name in &job.names {
        text += &format!("n{}\n", naming(name));
    }
    for factor in &job.factors {
        text += &format!("v{}\n", word(*factor));
    }
    let [i, q, scratch] = job.lengths;
    let settings = [word(job.rate), word(job.delay)].concat();
    let sizes = [(job.level + 30) as usize, job.rows, i, q, scratch].map(|n| format!(" {n:016x}"));
    let fill = job.fill.map(word).concat();
    let channel = naming(job.channel);
    text + &format!(
        "m{channel}{settings}{}{fill} {:016x}\n",
        sizes.concat(),
        job.from
    )
}

fn kinds(job: &Job) -> Vec<String> {
    let n = job.names.len();
    let plays = || job.plays.iter().map(|(play, _)| play);
    let mut kinds = vec![format!("{} rows", job.rows), format!("{n} crosstalk names")];
    let mut add = |is: bool, what: &str| {
        if is {
            kinds.push(what.into());
        }
    };
    add(job.level < -3, "a level below -3");
    add((-3..=3).contains(&job.level), "a level of -3 to 3");
    add(job.level > 3, "a level above 3");
    add(job.delay != 0.0, "a delay");
    add(job.tolerances[1] > 0.0, "a time tolerance");
    add(plays().any(|p| p.shape.is_some() && p.width > 0.0), "Hann");
    add(
        plays().any(|p| p.shape.is_some() && p.width > 0.0 && p.drag != 0.0),
        "Hann and drag",
    );
    add(
        plays().any(|p| p.shape.is_none() || p.width == 0.0),
        "a plateau alone",
    );
    add(job.lengths[0] > 256, "a row over 256 samples");
    add(job.lengths[0] > 65000, "a row of 65,535 samples or more");
    add(job.plays.len() > 32, "over 32 plays");
    kinds
}

pub(crate) fn job(rng: &mut Rng, k: u64, longest: u64) -> Job {
    let one_bin = k % 2 == 0;
    let wild = k % 12 == 10 || k % 12 == 7;
    let odd = if k % 6 == 5 { 12 } else { 400 };
    let wide = [1.0, 2.0, 0.5, 1.7, 2e9, 1e-3, 1.0 / 3.0];
    let mut rate = match rng.below(3) {
        0 => 1.0,
        1 => wide[rng.below(7) as usize],
        _ => {
            let field = 1023 + rng.within(-30, 30);
            rng.in_field(field).abs()
        }
    };
    let unit = 1.0 / rate;
    let length = match rng.below(12) {
        0 => rng.below(4),
        1 if longest > 12 && rng.below(25) == 0 => 65535 + rng.below(3),
        1 if longest > 12 => 257 + rng.below(3000),
        _ => 1 + rng.below(longest),
    } as usize;
    let delay = match rng.below(3) {
        0 => 0.0,
        1 => rng.within(-20, 20) as f64 * unit / 4.0,
        _ => rng.sample() * 10.0 * unit,
    };
    let level = match rng.below(8) {
        0 => rng.within(-20, 20),
        _ => rng.within(-3, 3),
    } as i32;
    let oscs = oscillators(rng, rate, one_bin, wild);
    let plays = plays(rng, &oscs, unit, length as f64, delay, one_bin, wild, odd);
    let (mut names, mut factors) = crosstalk(rng, oscs.len(), wild, odd);
    let rows = 1 + rng.below(2) as usize;
    let mut lengths = [
        length,
        if rows == 2 { length } else { 0 },
        length + rng.below(3) as usize,
    ];
    let mut job_rows = rows;
    let mut channel = CHANNELS[rng.below(oscs.len() as u64) as usize];
    let (mut delay, mut level) = (delay, level);
    // what is refused before any pulse
    match rng.below(odd) {
        0 => rate = [0.0, -1.0, f64::INFINITY, f64::NAN, 1e-310][rng.below(5) as usize],
        1 => level = [-21, 21, -30, 30][rng.below(4) as usize],
        2 => delay = [f64::INFINITY, f64::NEG_INFINITY, f64::NAN][rng.below(3) as usize],
        3 => job_rows = [0, 3][rng.below(2) as usize],
        4 => lengths[1] += 1,
        5 => lengths[2] = length.saturating_sub(1),
        6 => {
            factors.pop();
        }
        7 => {
            if let Some(last) = names.last_mut() {
                *last = ["", "a=b", "a b", "\u{7f}"][rng.below(4) as usize];
            }
        }
        8 => {
            if let Some(last) = factors.last_mut() {
                *last = [f64::INFINITY, f64::NAN][rng.below(2) as usize];
            }
        }
        9 | 11 => spoil(rng, &mut names),
        10 => channel = [CHANNELS[7], "nowhere", "", "a=b"][rng.below(4) as usize],
        _ => {}
    }
    let from = if length > 256 {
        rng.below(length as u64 - 200)
    } else {
        0
    };
    let odd_fill = [1e300, f64::INFINITY, f64::NAN, -0.0][rng.below(4) as usize];
    Job {
        plays,
        oscs,
        tolerances: [
            [0.0, 0.0, 0.125][rng.below(3) as usize],
            [0.0, 0.0, 0.25, 2.0][rng.below(4) as usize] * unit,
        ],
        names,
        factors,
        channel,
        rate,
        delay,
        level,
        rows: job_rows,
        lengths,
        fill: match rng.below(16) {
            0 => [odd_fill, 0.0],
            n if n < 8 => [0.0, 0.0],
            _ => [rng.sample(), rng.sample()],
        },
        from: from as usize,
        wild,
        one_bin,
    }
}

fn oscillators(rng: &mut Rng, rate: f64, one_bin: bool, wild: bool) -> Vec<Osc> {
    let count = 1 + rng.below(8) as usize;
    let first = oscillator(rng, rate, wild);
    (0..count)
        .map(|_| {
            if one_bin || rng.below(3) > 0 {
                first
            } else {
                oscillator(rng, rate, wild)
            }
        })
        .collect()
}

fn oscillator(rng: &mut Rng, rate: f64, wild: bool) -> Osc {
    let base = match rng.below(4) {
        0 => 0.0,
        1 => rng.within(-8, 8) as f64 * rate / 16.0,
        _ => rng.sample() * rate,
    };
    Osc {
        base: if wild && rng.below(6) == 0 {
            large(rng)
        } else {
            base
        },
        delta: if rng.below(2) == 0 {
            0.0
        } else {
            rng.sample() * rate
        },
        phase: rng.sample(),
    }
}

/// A number that overflows before long.
fn large(rng: &mut Rng) -> f64 {
    let field = 2046 - rng.below(60) as i64;
    rng.in_field(field)
}

#[allow(clippy::too_many_arguments)]
fn plays(
    rng: &mut Rng,
    oscs: &[Osc],
    unit: f64,
    length: f64,
    delay: f64,
    one_bin: bool,
    wild: bool,
    odd: u64,
) -> Vec<(Play<'static>, f64)> {
    let count = match rng.below(20) {
        0 => 0,
        1 => 40,
        _ => 1 + rng.below(10),
    };
    let kinds: Vec<Play> = (0..if one_bin { 1 } else { 3 })
        .map(|_| kind(rng, unit, length))
        .collect();
    let mut made: Vec<(Play, f64)> = Vec::new();
    for _ in 0..count {
        let like = kinds[rng.below(kinds.len() as u64) as usize];
        let room = (length - (like.width + like.plateau) / unit - 1.0).max(0.0);
        let at = match rng.below(odd) {
            0 => -rng.sample().abs() * 3.0,
            1 => length + rng.sample() * 3.0,
            2 => 1e22,
            n if n % 3 == 0 => rng.below(room as u64 + 1) as f64,
            _ => (rng.sample() + 1.0) / 2.0 * room,
        };
        let mut start = at * unit - delay;
        let taken = |start: f64| made.iter().any(|(_, other)| *other == start);
        if taken(start) && rng.below(8) > 0 {
            start = (rng.sample() + 1.0) / 2.0 * room * unit - delay;
        }
        let amplitude = match rng.below(12) {
            0 => [0.0, -0.0, 0.125, -0.0625][rng.below(4) as usize],
            _ => rng.sample() * 2.0,
        };
        let play = Play {
            channel: CHANNELS[rng.below(oscs.len() as u64) as usize],
            shape: like.shape.map(|_| ["hann", "h"][rng.below(2) as usize]),
            amplitude: if wild && rng.below(4) == 0 {
                large(rng)
            } else {
                amplitude
            },
            drag: [0.0, rng.sample() * unit, rng.sample() * 8.0 * unit][rng.below(3) as usize],
            phase: rng.sample() * 4.0,
            ..like
        };
        if play_finite(&play) {
            made.push((play, start));
        }
    }
    made
}

/// Whether the play is stored without a refusal: what is worked out for it is finite.
fn play_finite(play: &Play) -> bool {
    (play.amplitude.abs() * play.drag.abs().max(1.0)).is_finite()
}

/// A play's envelope and frequency.
fn kind(rng: &mut Rng, unit: f64, length: f64) -> Play<'static> {
    let size = |rng: &mut Rng| match rng.below(5) {
        0 => 0.0,
        1 => rng.below(1 + (length / 3.0) as u64) as f64 * unit,
        2 => rng.sample().abs() * 2.0 * unit,
        _ => rng.sample().abs() * length / 3.0 * unit,
    };
    Play {
        channel: "",
        shape: (rng.below(3) > 0).then_some("hann"),
        amplitude: 0.0,
        width: size(rng),
        plateau: if rng.below(2) == 0 { 0.0 } else { size(rng) },
        drag: 0.0,
        frequency: [0.0, -0.0, 1.0, rng.sample()][rng.below(4) as usize] / unit,
        phase: 0.0,
        flexible: false,
    }
}

/// One to three names become a copy of another, or one that may have no channel, at any place.
fn spoil(rng: &mut Rng, names: &mut [&'static str]) {
    let n = names.len() as u64;
    for _ in 0..if n == 0 { 0 } else { 1 + rng.below(3) } {
        let at = rng.below(n) as usize;
        names[at] = match rng.below(2) {
            0 => names[rng.below(n) as usize],
            _ => CHANNELS[7],
        };
    }
}

fn crosstalk(
    rng: &mut Rng,
    channels: usize,
    wild: bool,
    odd: u64,
) -> (Vec<&'static str>, Vec<f64>) {
    if rng.below(4) == 0 {
        return (Vec::new(), Vec::new());
    }
    let mut names: Vec<&'static str> = CHANNELS[..channels].to_vec();
    for at in (1..names.len()).rev() {
        names.swap(at, rng.below(at as u64 + 1) as usize);
    }
    if rng.below(3) == 0 {
        names.truncate(rng.below(channels as u64 + 1) as usize);
    }
    let more = if rng.below(odd) == 0 { rng.below(4) } else { 0 };
    let count = (names.len() * names.len() + more as usize).min(64);
    let factors = (0..count).map(|_| match rng.below(8) {
        0 => [0.0, -0.0, 1.0, -1.0][rng.below(4) as usize],
        1 if wild => large(rng),
        _ => rng.sample(),
    });
    let factors = factors.collect();
    (names, factors)
}
