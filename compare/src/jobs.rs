//! Whole jobs, as docs/JOBS.md has them, answered by the program `bench` and by the Rust, and compared line by line: tables, commands of every
//! kind, crosstalk, rows, samplings, steps, lines that cannot be read. Refusals before any pulse, of sizes and of syntax are document 01's and
//! docs/JOBS.md's words; all else is the Rust's.
use crate::commands::{numbers_of, output, word, CHANNELS};
use crate::mixer::their_mixer;
use crate::rng::Rng;
use crate::sampling::{job, refused_before, same_times, sample, Job};
use std::collections::BTreeMap;
use std::process::ExitCode;
use theirs::tables::{Command, Item, Play, Tables};

/// A text of many jobs, and what is to be answered.
#[derive(Default)]
struct Text {
    asked: String,
    told: String,
    lines: usize,
    jobs: u64,
    counts: BTreeMap<String, u64>,
}

/// `program` is what runs `bench`, word by word.
pub fn compare(seeds: u64, program: &[String]) -> ExitCode {
    let mut counts: BTreeMap<String, u64> = BTreeMap::new();
    let (mut jobs, mut lines, mut different) = (0, 0, 0u64);
    for seed in 1..=seeds {
        let mut rng = Rng::new(seed);
        let mut text = Text::default();
        let mut k = 0;
        while text.asked.len() < 220_000 && text.told.len() < 4_000_000 {
            text.add(&mut rng, k);
            k += 1;
        }
        assert!(text.asked.len() <= 262_144, "a job's size");
        let ours = output(program, &text.asked);
        jobs += text.jobs;
        for (what, count) in text.counts {
            *counts.entry(what).or_default() += count;
        }
        let (mut ours, mut told) = (ours.lines(), text.told.lines());
        loop {
            let (a, b) = (ours.next(), told.next());
            if a.is_none() && b.is_none() {
                break;
            }
            lines += 1;
            if a != b {
                different += 1;
                if different <= 3 {
                    let cut = |line: Option<&str>| {
                        line.map(|line| line.chars().take(400).collect::<String>())
                    };
                    println!(
                        "different, seed {seed}: ours {:?}, theirs {:?}",
                        cut(a),
                        cut(b)
                    );
                }
            }
        }
    }
    for (what, count) in &counts {
        println!("  {what:50} {count:>10}");
    }
    println!("{jobs} jobs compared in {seeds} texts, {lines} lines, {different} different");
    ExitCode::from(u8::from(different > 0))
}

impl Text {
    fn ask(&mut self, line: &str, told: &str) {
        self.lines += 1;
        self.asked += line;
        self.asked.push('\n');
        if !told.is_empty() {
            self.told += told;
            self.told.push('\n');
        }
    }

    fn count(&mut self, what: &str, by: usize) {
        *self.counts.entry(what.into()).or_default() += by as u64;
    }

    /// One job that document 01 lets be compared.
    fn add(&mut self, rng: &mut Rng, k: u64) {
        let mut job = job(rng, k, 200);
        job.fill = [0.0, 0.0];
        if job.wild {
            return;
        }
        if same_times(&job) {
            self.count("left out: equal times", 1);
            return;
        }
        let n = job.names.len();
        let length = job.lengths[0];
        let named = job.names.iter().chain([&job.channel]);
        let sayable = named
            .into_iter()
            .all(|name| !name.is_empty() && !name.contains(' '));
        let sized = (1..=2).contains(&job.rows) && length <= 65_536 && job.factors.len() >= n * n;
        let lent =
            job.lengths[1] == if job.rows == 2 { length } else { 0 } && job.lengths[2] >= length;
        if !(sayable && sized && lent) {
            self.count("left out: sizes or names that a job cannot say", 1);
            return;
        }
        self.jobs += 1;
        let tables = self.tables(rng, &job);
        self.crosstalk(rng, &job);
        let mut samples = self.sampled(&job, &tables);
        self.print(job.rows, &samples);
        for _ in 0..rng.below(3) {
            self.step(rng, job.rows, &mut samples);
            self.print(job.rows, &samples);
        }
    }

    /// Fresh tables, channels and shapes, the commands, and what they come to.
    fn tables(&mut self, rng: &mut Rng, job: &Job) -> Tables {
        let [amp, time] = job.tolerances;
        let oversize = rng.below(3) == 0;
        let mut tables = Tables::new(amp, time, oversize).expect("tables");
        self.ask(
            &format!(
                "tables amp_tol={} time_tol={} oversize={}",
                hex(amp),
                hex(time),
                u8::from(oversize)
            ),
            "ok 0",
        );
        for (name, osc) in CHANNELS.iter().zip(&job.oscs) {
            tables.add_channel(name, *osc).expect("a channel");
            let [base, delta, phase] = [osc.base, osc.delta, osc.phase].map(hex);
            self.ask(
                &format!("channel {name} base={base} delta={delta} phase={phase}"),
                "ok 0",
            );
        }
        for name in ["hann", "h"] {
            tables.add_hann(name);
            self.ask(&format!("shape {name} hann"), "ok 0");
        }
        // Of two names one or both may stand for splines, the same or others.
        let splined = rng.below(3);
        if splined > 0 {
            self.spline(rng, &mut tables, "h");
        }
        if splined == 2 {
            self.spline(rng, &mut tables, "hann");
        }
        // The Rust refuses some commands when they are made; nothing behind such a one runs.
        let (mut items, mut unmade) = (Vec::new(), None);
        let mut say = |text: &mut Self, command: &Command, start: f64, span: f64| {
            match Item::new(command, start, span) {
                Ok(item) if unmade.is_none() => items.push(item),
                Err(why) if unmade.is_none() => unmade = Some(why),
                _ => {}
            }
            text.ask(
                &format!("{} start={} span={}", said(command), hex(start), hex(span)),
                "",
            );
            text.count(
                &format!(
                    "commands: {}",
                    said(command).split(' ').next().expect("a word")
                ),
                1,
            );
        };
        for (play, start) in &job.plays {
            if rng.below(4) == 0 {
                say(self, &other(rng, job.oscs.len(), job.rate), *start, 0.0);
            }
            if rng.below(6) == 0 {
                self.aside(rng);
            }
            let (play, span) = odd(rng, *play);
            say(self, &Command::Play(play), *start, span);
        }
        let (ran, refusal) = tables.execute(&items);
        let refusal = refusal.or(unmade);
        let told = match refusal {
            None => format!("ok {ran}"),
            Some(why) => format!("refused {} {ran}", why.number.expect("a number")),
        };
        self.count(
            &format!("run: {}", told.rsplit_once(' ').expect("two words").0),
            1,
        );
        self.ask("run", &told);
        // Stored pulses keep what they had.
        match rng.below(6) {
            0 => self.spline(rng, &mut tables, "h"),
            1 => {
                tables.add_hann("h");
                self.ask("shape h hann", "ok 0");
            }
            _ => {}
        }
        let states: BTreeMap<String, _> = tables.states().into_iter().collect();
        let state = |name: &&str| {
            let osc = &states[*name];
            format!(
                "state {name}{}{}{}\n",
                word(osc.base),
                word(osc.delta),
                word(osc.phase)
            )
        };
        let told: String = CHANNELS[..job.oscs.len()].iter().map(state).collect();
        self.ask("states", &(told + "ok 0"));
        tables
    }

    /// A spline of any degree, whose steps do not overflow; before it, now and then, one that is refused.
    fn spline(&mut self, rng: &mut Rng, tables: &mut Tables, name: &str) {
        if rng.below(4) == 0 {
            let (line, told) = [
                ("degree=6 controls=7 knots=14 1 1 1 1 1 1 1 0 1 2 3 4 5 6 7 8 9 10 11 12 13", "refused 16 0"),
                ("degree=1 controls=1 knots=3 1 0 1 2", "refused 16 0"),
                ("degree=0 controls=1 knots=3 1 0 1 2", "refused 16 0"),
                ("degree=0 controls=1 knots=2 1 1 0", "refused 16 0"),
                ("degree=9 controls=1 knots=2 7ff0000000000000 1 0", "refused 2 0"),
                ("degree=0 controls=1 knots=2 1 0 7ff8000000000000", "refused 2 0"),
            ][rng.below(6) as usize];
            self.count(&format!("splines {}", &told[..told.len() - 2]), 1);
            self.ask(&format!("spline {name} {line}"), told);
        }
        self.count("splines", 1);
        let degree = rng.below(6) as usize;
        let n = degree + 1 + rng.below(33 - degree as u64 - 1) as usize;
        let controls: Vec<f64> = (0..n)
            .map(|_| match rng.below(4) {
                0 => 1.0,
                1 => rng.below(5) as f64 - 2.0,
                _ => between(rng, -1.5, 1.5),
            })
            .collect();
        let half = [0.5, 0.5, 0.25, 0.75][rng.below(4) as usize];
        let mut knots: Vec<f64> = (0..n + degree + 1)
            .map(|_| match rng.below(3) {
                0 => (rng.below(9) as f64 / 8.0 - 0.5) * 2.0 * half,
                _ => between(rng, -half, half),
            })
            .collect();
        knots.sort_by(f64::total_cmp);
        if rng.below(2) == 0 {
            knots[..=degree].fill(-half);
            knots[n..].fill(half);
        }
        tables.add_spline(name, degree, &controls, &knots);
        let numbers: String = controls.iter().chain(&knots).map(|x| word(*x)).collect();
        let counts = format!("degree={degree} controls={n} knots={}", knots.len());
        self.ask(&format!("spline {name} {counts}{numbers}"), "ok 0");
    }

    /// A line that is no request, or one that is refused and changes nothing.
    fn aside(&mut self, rng: &mut Rng) {
        let odd = [
            "play",
            "run now",
            "rows 1",
            "sample  q0",
            " run",
            "mixer 1 2 3 4 5",
            "iq 1 0 0 1",
            "offset 0.5",
            "fir 2 0",
            "nothing",
            "channel q0 base=1 delta=0",
            "spline h degree=0 controls=1 knots=2 1 0",
            "spline h degree=0 controls=2 knots=1 1 0 1 1",
        ];
        match rng.below(5) {
            0 => self.ask("", ""),
            1 => self.ask("# a remark", ""),
            2 => self.ask(
                ["rows 3 5", "rows 0 5", "rows 2 65537"][rng.below(3) as usize],
                "refused 13 0",
            ),
            _ => {
                self.count("lines that cannot be read", 1);
                let told = format!("syntax {}", self.lines + 1);
                self.ask(odd[rng.below(odd.len() as u64) as usize], &told);
            }
        }
    }

    fn crosstalk(&mut self, rng: &mut Rng, job: &Job) {
        let n = job.names.len();
        self.count(&format!("jobs with {n} crosstalk names"), 1);
        let factors: String = job.factors[..n * n].iter().map(|x| word(*x)).collect();
        let names: String = job.names.iter().map(|name| format!(" {name}")).collect();
        if rng.below(8) == 0 {
            self.ask("crosstalk 1 q0 2", "ok 0");
        }
        if sheet_can_say(job) && rng.below(2) == 0 {
            self.sheet(rng, job);
            return;
        }
        self.ask(&format!("crosstalk {n}{names}{factors}"), "ok 0");
    }

    /// The same as a sheet, its rows in any order; before it, now and then, one that is refused, and one of more lines than there are.
    fn sheet(&mut self, rng: &mut Rng, job: &Job) {
        let n = job.names.len();
        self.count("sheets", 1);
        if rng.below(4) == 0 {
            self.ask("sheet 2\nchannels=1\ncolumn=q0", "refused 15 3");
            self.lines += 2;
        }
        if rng.below(4) == 0 {
            let told = format!("syntax {}", self.lines + 1);
            self.ask("sheet 100000000", &told);
        }
        let mut rows: Vec<usize> = (0..n).collect();
        for k in (1..n).rev() {
            rows.swap(k, rng.below(k as u64 + 1) as usize);
        }
        let mut sheet = format!("sheet {}\nchannels={n}", 1 + n + n * (n + 1));
        for name in &job.names {
            sheet += &format!("\ncolumn={name}");
        }
        for row in rows {
            sheet += &format!("\nrow={}", job.names[row]);
            for factor in &job.factors[row * n..][..n] {
                sheet += &format!("\nfactor={}", hex(*factor));
            }
        }
        let lines = sheet.lines().count();
        self.ask(&sheet, &format!("ok {n}"));
        self.lines += lines - 1;
    }

    /// The rows after a sampling onto zeros, I before Q.
    fn sampled(&mut self, job: &Job, tables: &Tables) -> Vec<f64> {
        let mut samples = vec![0.0; job.rows * job.lengths[0]];
        self.ask(&format!("rows {} {}", job.rows, job.lengths[0]), "ok 0");
        let told = match refused_before(job) {
            Some((number, place)) => format!("refused {number} {place}"),
            None => match sample(&tables.lists().expect("lists"), job, &mut samples) {
                (mixed, None) => format!("ok {mixed}"),
                (mixed, Some((number, why))) => format!(
                    "refused {} {mixed}",
                    number.unwrap_or_else(|| panic!("{why}"))
                ),
            },
        };
        self.count(
            &format!("sample: {}", told.rsplit_once(' ').expect("two words").0),
            1,
        );
        let (rate, delay) = (hex(job.rate), hex(job.delay));
        self.ask(
            &format!(
                "sample {} rate={rate} delay={delay} level={}",
                job.channel, job.level
            ),
            &told,
        );
        samples
    }

    fn step(&mut self, rng: &mut Rng, rows: usize, samples: &mut [f64]) {
        let kind = rng.below(4);
        let mut some = |n: u64| (0..n).map(|_| rng.sample() / 4.0).collect::<Vec<f64>>();
        let (name, mut numbers) = match kind {
            1 => ("iir", some(24)),
            2 => ("fir", some(9)),
            _ => ("mixer", some(6)),
        };
        let size = if name == "iir" || name == "fir" {
            format!(" {}", numbers.len())
        } else {
            String::new()
        };
        let wrong = if name == "iir" {
            a0s(rng, &mut numbers)
        } else {
            None
        };
        let told: String = numbers.iter().map(|x| word(*x)).collect();
        let line = format!("{name}{size}{told}");
        if name == "mixer" && rows == 1 {
            self.ask(&line, "refused 13 0");
            self.count("steps: mixer, refused by 13", 1);
            return;
        }
        if let Some(section) = wrong {
            self.ask(&line, &format!("refused 22 {section}"));
            self.count("steps: iir, refused by 22", 1);
            return;
        }
        self.ask(&line, "ok 0");
        self.count(&format!("steps: {name}"), 1);
        match name {
            "iir" => theirs::rows::iir(samples, rows, &numbers),
            "fir" => theirs::rows::fir(samples, rows, &numbers),
            _ => their_mixer(samples, rows, &numbers),
        }
    }

    fn print(&mut self, rows: usize, samples: &[f64]) {
        let length = samples.len() / rows;
        let row = |r: usize| {
            let shown = samples[r * length..(r + 1) * length].iter().map(|x| {
                word(if x.is_nan() {
                    f64::from_bits(0x7ff8 << 48)
                } else {
                    *x
                })
            });
            format!("row {}{}\n", r + 1, shown.collect::<String>())
        };
        let told: String = (0..rows).map(row).collect();
        self.ask("print", &(told + "ok 0"));
        self.count("samples printed", samples.len());
    }
}

/// Every a0 becomes 1; in one list of eight one or two become another number. The first of these, from 0.
fn a0s(rng: &mut Rng, sections: &mut [f64]) -> Option<usize> {
    for section in sections.chunks_mut(6) {
        section[3] = 1.0;
    }
    if rng.below(8) != 0 {
        return None;
    }
    let count = sections.len() as u64 / 6;
    let spoilt = [rng.below(count) as usize, rng.below(count) as usize];
    for k in spoilt {
        sections[6 * k + 3] = [2.0, -1.0, 0.0, 1.0 + f64::EPSILON][rng.below(4) as usize];
    }
    Some(spoilt[0].min(spoilt[1]))
}

fn between(rng: &mut Rng, low: f64, high: f64) -> f64 {
    low + (high - low) * ((rng.bits() >> 11) as f64 * 2f64.powi(-53))
}

/// The play and its span; one in a hundred is refused: a shape that is not there, a number not finite, too short a span.
fn odd(rng: &mut Rng, play: Play<'static>) -> (Play<'static>, f64) {
    let mut play = play;
    let mut span = play.width + play.plateau;
    match rng.below(400) {
        0 => play.shape = Some("nowhere"),
        1 => play.amplitude = f64::INFINITY,
        2 => span /= 2.0,
        3 => span = -1.0,
        _ => {}
    }
    (play, span)
}

/// A command that plays nothing; one in 40 is to a channel that is not there.
fn other(rng: &mut Rng, channels: usize, rate: f64) -> Command<'static> {
    let mut name = || match rng.below(40) {
        0 => "nowhere",
        n => CHANNELS[n as usize % channels],
    };
    let (a, b) = (name(), name());
    let turn = rng.sample() * 2.0;
    let by = rng.sample()
        * if rate.is_finite() && rate > 1e-9 {
            rate
        } else {
            1.0
        };
    match rng.below(6) {
        0 => Command::ShiftPhase(a, turn),
        1 => Command::SetPhase(a, turn),
        2 => Command::ShiftFreq(a, by),
        3 => Command::SetFreq(a, by),
        4 => Command::SwapPhase(a, b),
        _ => Command::Barrier,
    }
}

/// One to eight good names, none doubled, and finite factors.
fn sheet_can_say(job: &Job) -> bool {
    let n = job.names.len();
    let single = (1..n).all(|k| !job.names[..k].contains(&job.names[k]));
    let good = |name: &&str| {
        name.len() <= 16 && name.bytes().all(|b| b != b'=' && (0x21..=0x7e).contains(&b))
    };
    (1..=8).contains(&n)
        && single
        && job.names.iter().all(good)
        && job.factors[..n * n].iter().all(|x| x.is_finite())
}

fn hex(x: f64) -> String {
    format!("{:016x}", x.to_bits())
}

fn said(command: &Command) -> String {
    match *command {
        Command::Play(p) => {
            let [amp, width, plateau, drag, freq, phase] = numbers_of(&p).map(hex);
            let (shape, flex) = (p.shape.unwrap_or(""), u8::from(p.flexible));
            format!("play ch={} shape={shape} amp={amp} width={width} plateau={plateau} drag={drag} freq={freq} phase={phase} flex={flex}", p.channel)
        }
        Command::ShiftPhase(name, x) => format!("shift_phase ch={name} phase={}", hex(x)),
        Command::SetPhase(name, x) => format!("set_phase ch={name} phase={}", hex(x)),
        Command::ShiftFreq(name, x) => format!("shift_freq ch={name} freq={}", hex(x)),
        Command::SetFreq(name, x) => format!("set_freq ch={name} freq={}", hex(x)),
        Command::SwapPhase(a, b) => format!("swap_phase a={a} b={b}"),
        Command::Barrier => "barrier".into(),
    }
}
