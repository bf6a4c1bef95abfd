//! Alignment and the oscillators' commands beside the Rust's.
use crate::cases::{special_times, Case, ALIGN, OSC};
use crate::host;
use crate::report::{Class, Report};
use crate::rng::Rng;
use theirs::osc::Osc;

pub fn compare(report: &mut Report, scale: u64) {
    // Structs go in and out as x86-64's C passes them, so that these calls cannot be made on another machine.
    if cfg!(not(target_arch = "x86_64")) {
        println!("place and the oscillator's commands: not compared on this machine");
        return;
    }
    report.subject("place beside AlignedIndex");
    let mut rng = Rng::new(21);
    for (name, next) in ALIGN {
        let mut class = report.class(name);
        for _ in 0..50_000 * scale {
            let level = rng.within(-20, 20) as i32;
            let (time, rate) = next(&mut rng, level);
            placed(&mut class, time, rate, level);
        }
        report.add(class);
    }
    let mut class = report.class("special");
    for level in -20..=20 {
        for time in special_times(level) {
            placed(&mut class, time, 1.0, level);
        }
    }
    report.add(class);
    report.subject("the oscillator's five commands beside OscState");
    for (name, next) in OSC {
        let mut class = report.class(name);
        for _ in 0..4_000 * scale {
            commands(&mut class, [0; 6].map(|_| next(&mut rng)));
        }
        report.add(class);
    }
}

/// Start and offset; 8, 9 or 10 where the Rust has none.
fn placed(class: &mut Class, time: f64, rate: f64, level: i32) {
    let inputs = [time, rate, f64::from(level)];
    let ours = host::place(time, rate, level);
    let theirs = theirs::aligned::placed(time, rate, level);
    class.judge(
        &inputs,
        f64::from(u8::from(ours.code != 0)),
        f64::from(u8::from(theirs.is_none())),
    );
    if let Some((start, offset)) = theirs {
        // In halves, each of which a double holds.
        for (ours, theirs) in halves(ours.start).into_iter().zip(halves(start)) {
            class.judge(&inputs, ours, theirs);
        }
        class.judge(&inputs, ours.offset, offset);
    }
}

fn halves(n: usize) -> [f64; 2] {
    [(n >> 32) as f64, (n & 0xffff_ffff) as f64]
}

fn commands(class: &mut Class, [a, b, c, d, e, f]: [Case; 6]) {
    use theirs::osc;
    let ours = host::shift_phase(a.osc, a.phase);
    one(class, &a, ours, osc::shift_phase(a.osc, a.phase, a.time));
    let ours = host::set_phase(b.osc, b.phase, b.time);
    one(class, &b, ours, osc::set_phase(b.osc, b.phase, b.time));
    let ours = host::shift_freq(c.osc, c.freq, c.time);
    one(class, &c, ours, osc::shift_freq(c.osc, c.freq, c.time));
    let ours = host::set_freq(d.osc, d.freq, d.time);
    one(class, &d, ours, osc::set_freq(d.osc, d.freq, d.time));
    let (refused, one, two) = host::swap_phase(e.osc, f.osc, e.time);
    let inputs = [numbers(e.osc).as_slice(), &numbers(f.osc), &[e.time]].concat();
    let theirs = osc::swap_phase([e.osc, f.osc], e.time);
    let after = theirs.map(|both| both.map(numbers).concat());
    let ours = [numbers(one), numbers(two)].concat();
    let before = [numbers(e.osc), numbers(f.osc)].concat();
    judge(class, &inputs, &before, refused, &ours, after);
}

fn one(class: &mut Class, case: &Case, (refused, osc): (bool, Osc), theirs: Option<Osc>) {
    let before = numbers(case.osc);
    let inputs = [before.as_slice(), &[case.phase, case.freq, case.time]].concat();
    let after = theirs.map(|osc| numbers(osc).to_vec());
    judge(class, &inputs, &before, refused, &numbers(osc), after);
}

/// Refused exactly where the Rust panics or keeps an infinity; then all is as it came.
fn judge(
    class: &mut Class,
    inputs: &[f64],
    before: &[f64],
    refused: bool,
    ours: &[f64],
    theirs: Option<Vec<f64>>,
) {
    let theirs = theirs.filter(|after| after.iter().all(|x| x.is_finite()));
    class.judge(
        inputs,
        f64::from(u8::from(refused)),
        f64::from(u8::from(theirs.is_none())),
    );
    for (ours, theirs) in ours.iter().zip(theirs.as_deref().unwrap_or(before)) {
        class.judge(inputs, *ours, *theirs);
    }
}

fn numbers(osc: Osc) -> [f64; 3] {
    [osc.base, osc.delta, osc.phase]
}
