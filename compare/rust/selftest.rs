//! Shows that the test copy does what its text and document 01 say: the bench examples B1 to B9, then further small cases.
use theirs::aligned::{aligned, phaser, placed};
use theirs::lists::{hann, Bin, Channel, Crosstalk, Lists};
use theirs::osc::{self, Osc};
use theirs::refusal::Refusal;
use theirs::rows;
use theirs::tables::{Command, Item, Play, Tables};

fn main() {
    let examples: [(&str, fn()); 20] = [
        ("B1 alignment", b1),
        ("B2 alignment upwards", b2),
        ("B3 before the row", b3),
        ("B4 a pulse of no samples", b4),
        ("B5 a section", b5),
        ("B6 a shaped pulse that begins too early", b6),
        ("B7 fused in the matrix step", b7),
        ("B8 kept times", b8),
        ("B9 oscillator commands", b9),
        ("powers of two are exact", powers_of_two),
        ("the other operations of an oscillator", oscillator),
        ("why a command is refused", command_refusals),
        ("why a pulse is refused", sampling_refusals),
        ("bins by first push and first spelling", bins),
        ("many bins", many_bins),
        ("carrier, envelope and drag", mixing),
        ("crosstalk", crosstalk),
        ("pipeline and cascade", sections),
        ("the mixer's steps, each alone", lone_steps),
        ("taps in ring order, not fused", taps),
    ];
    for (name, example) in examples {
        println!("  {name}");
        example();
    }
    println!("test copy: {} examples hold", examples.len());
}

const PLAY: Play = Play {
    channel: "a",
    shape: None,
    amplitude: 1.0,
    width: 0.0,
    plateau: 0.0,
    drag: 0.0,
    frequency: 0.0,
    phase: 0.0,
    flexible: false,
};

const OSC: Osc = Osc {
    base: 0.0,
    delta: 0.0,
    phase: 0.0,
};

/// Tables with channels a, b and c and the shape hann, any span taken.
fn tables(time_tolerance: f64) -> Tables {
    let mut tables = Tables::new(0.0, time_tolerance, true).unwrap();
    for name in ["a", "b", "c"] {
        tables.add_channel(name, OSC).unwrap();
    }
    tables.add_hann("hann");
    tables
}

fn run(tables: &mut Tables, command: Command, start: f64) {
    let item = Item::new(&command, start, 0.0).unwrap();
    assert_eq!(tables.execute(&[item]), (1, None));
}

fn lists(time_tolerance: f64, plays: &[(f64, Play)]) -> Lists {
    let mut tables = tables(time_tolerance);
    for &(start, play) in plays {
        run(&mut tables, Command::Play(play), start);
    }
    tables.lists().unwrap()
}

/// Samples channel a at rate 1 onto one row of zeros.
fn row(lists: &Lists, level: i32, length: usize) -> Result<Vec<f64>, Refusal> {
    let mut row = vec![0.0; length];
    lists.sample(&channel(level), None, &mut row, 1)?;
    Ok(row)
}

fn channel(level: i32) -> Channel<'static> {
    Channel {
        name: "a",
        rate: 1.0,
        delay: 0.0,
        level,
    }
}

fn number<T: std::fmt::Debug>(answer: Result<T, Refusal>) -> Option<u8> {
    answer.unwrap_err().number
}

fn times(bin: &Bin) -> Vec<f64> {
    bin.pulses.iter().map(|pulse| pulse.time).collect()
}

/// Equal bits, so that 0 is not -0.
fn same(a: &[f64], b: &[f64]) {
    let bits = |xs: &[f64]| xs.iter().map(|x| x.to_bits()).collect::<Vec<_>>();
    assert_eq!(bits(a), bits(b), "{a:?} {b:?}");
}

fn b1() {
    assert_eq!(placed(2.25, 1.0, 0), Some((3, 0.0)));
    assert_eq!(placed(2.25, 1.0, -2), Some((2, 0.75)));
}

fn b2() {
    assert_eq!(placed(5.0, 1.0, 2), Some((8, 0.0)));
}

fn b3() {
    same(&[aligned(-0.5, 1.0, 0).unwrap().value], &[-0.0]);
    assert_eq!(placed(-0.5, 1.0, 0), Some((0, 0.0)));
    assert!(row(&lists(0.0, &[(-0.5, PLAY)]), 0, 8).is_ok());
    assert_eq!(number(row(&lists(0.0, &[(-1.0, PLAY)]), 0, 8)), Some(9));
}

fn b4() {
    assert_eq!(row(&lists(0.0, &[(7.0, PLAY)]), 0, 8), Ok(vec![0.0; 8]));
    assert_eq!(number(row(&lists(0.0, &[(8.0, PLAY)]), 0, 8)), Some(10));
}

fn b5() {
    let mut row = [1.0, 0.0, 0.0, 0.0];
    rows::iir(&mut row, 1, &[1.0, 2.0, 3.0, 1.0, 0.0, 0.0]);
    assert_eq!(row, [1.0, 2.0, 3.0, 0.0]);
}

fn b6() {
    let shaped = |width| {
        let shape = Some("hann");
        let play = Play {
            shape,
            width,
            ..PLAY
        };
        row(&lists(0.0, &[(0.25, play)]), -2, 8)
    };
    assert_eq!(placed(0.25, 1.0, -2), Some((0, 0.75)));
    assert_eq!(number(shaped(1.0)), Some(11));
    // One point, at x = 0.
    assert_eq!(
        shaped(1.5),
        Ok(vec![1.0, 0.0, 0.0, 0.0, 0.0, 0.0, 0.0, 0.0])
    );
    assert_eq!(number(hann(1.0, 0.0, 0.75, 1.0)), Some(11));
    assert_eq!(hann(1.5, 0.0, 0.75, 1.0), Ok(vec![1.0]));
}

fn b7() {
    let e = f64::EPSILON;
    let mut samples = [1.0 - e, -1.0];
    rows::mixer(&mut samples, &[1.0 + e, 1.0, 0.0, 1.0], &[0.0, 0.0]);
    same(&samples, &[-e * e, -1.0]);
}

fn b8() {
    let plays = [0.0, 0.5, 1.0].map(|start| (start, PLAY));
    let bins = lists(0.5, &plays).bins("a").unwrap();
    assert_eq!(times(&bins[0]), [0.0, 1.0]);
    assert_eq!(bins[0].pulses[0].amp, [2.0, 0.0]);
    // The second summing, of lists that crosstalk joins, keeps the same two: 0.5 is moved to the start 1 where it is kept.
    let long = |channel| Play {
        channel,
        plateau: 1.0,
        ..PLAY
    };
    let joined = lists(0.5, &[(0.0, long("a")), (0.5, long("b")), (1.0, long("c"))]);
    let names = ["a", "b", "c"];
    let factors = [1.0; 9];
    let mut row = [0.0; 3];
    let crosstalk = Crosstalk {
        names: &names,
        factors: &factors,
    };
    let sampled = joined.sample(&channel(0), Some(&crosstalk), &mut row, 1);
    assert_eq!(sampled, Ok(()));
    assert_eq!(row, [2.0, 1.0, 0.0]);
}

fn b9() {
    let start = Osc { base: 5.0, ..OSC };
    let state = |delta, phase| Osc {
        base: 5.0,
        delta,
        phase,
    };
    let first = osc::set_freq(start, 2.0, 3.0).unwrap();
    assert_eq!(first, state(2.0, -6.0));
    let second = osc::set_phase(first, 1.0, 4.0).unwrap();
    assert_eq!(second, state(2.0, -7.0));
    let third = osc::shift_freq(second, -1.0, 2.0).unwrap();
    assert_eq!(third, state(1.0, -5.0));
}

/// The Rust takes 2^level from `f64::exp2`, and document 01 exactly.
fn powers_of_two() {
    for level in -20..=20 {
        let power = 2f64.powi(level);
        same(&[aligned(power, 1.0, level).unwrap().value], &[power]);
        let next = aligned(power * (1.0 + f64::EPSILON), 1.0, level).unwrap();
        same(&[next.value], &[2.0 * power]);
    }
}

fn oscillator() {
    let state = Osc {
        base: 5.0,
        delta: 2.0,
        phase: 1.0,
    };
    let shifted = osc::shift_phase(state, 0.25, 9.0).unwrap();
    assert_eq!(
        shifted,
        Osc {
            phase: 1.25,
            ..state
        }
    );
    let other = Osc { base: 4.0, ..OSC };
    let [a, b] = osc::swap_phase([state, other], 2.0).unwrap();
    assert_eq!((a.phase, b.phase), (-6.0, 7.0));
    assert_eq!((a.base, a.delta, b.base, b.delta), (5.0, 2.0, 4.0, 0.0));
    assert_eq!(osc::total_freq(state), Some(7.0));
    assert_eq!(osc::phase_at(state, 3.0), Some(22.0));
    assert_eq!(
        osc::with_time_shift(state, 3.0),
        Some(Osc {
            phase: 22.0,
            ..state
        })
    );
    // Infinities are kept, and a NaN panics.
    let huge = Osc {
        delta: f64::MAX,
        ..OSC
    };
    let infinite = osc::shift_freq(huge, f64::MAX, 1.0).unwrap();
    assert_eq!(infinite.delta, f64::INFINITY);
    assert_eq!(osc::set_freq(infinite, 1.0, 0.0), None);
}

fn command_refusals() {
    let run = |command: Command, span| {
        let mut tables = Tables::new(0.0, 0.5, false).unwrap();
        tables.add_channel("a", OSC).unwrap();
        let item = Item::new(&command, 0.0, span).map_err(|refusal| refusal.number)?;
        match tables.execute(&[item]) {
            (_, Some(refusal)) => Err(refusal.number),
            (count, None) => Ok(count),
        }
    };
    let flexible = Play {
        width: 2.0,
        flexible: true,
        ..PLAY
    };
    let unknown = Play {
        channel: "x",
        ..flexible
    };
    let shaped = Play {
        shape: Some("x"),
        ..unknown
    };
    let narrow = |width, plateau| {
        Command::Play(Play {
            width,
            plateau,
            ..PLAY
        })
    };
    let infinite = f64::INFINITY;
    assert_eq!(run(Command::ShiftPhase("a", infinite), 0.0), Err(Some(2)));
    assert_eq!(run(narrow(-1.0, 0.0), 9.0), Err(Some(2)));
    assert_eq!(run(narrow(0.0, infinite), 9.0), Err(Some(2)));
    // Refused by the constructor; document 01 leaves that out and has 6.
    assert_eq!(run(narrow(0.0, -1.0), 9.0), Err(None));
    assert_eq!(run(Command::Barrier, -0.5), Ok(1));
    assert_eq!(run(Command::Barrier, -0.75), Err(Some(4)));
    assert_eq!(run(Command::Play(flexible), 1.25), Err(Some(4)));
    assert_eq!(run(Command::Play(flexible), 1.5), Err(Some(6)));
    assert_eq!(run(Command::Play(shaped), 1.5), Err(Some(5)));
    assert_eq!(run(Command::Play(unknown), 1.5), Err(Some(6)));
    assert_eq!(run(Command::Play(unknown), 2.0), Err(Some(7)));
    assert_eq!(run(Command::Play(flexible), 2.0), Ok(1));
    assert_eq!(run(Command::SwapPhase("x", "x"), 0.0), Ok(1));
    assert_eq!(run(Command::SwapPhase("a", "x"), 0.0), Err(Some(7)));
    assert_eq!(run(Command::SetFreq("x", 0.0), 0.0), Err(Some(7)));
}

fn sampling_refusals() {
    let one = |start, play| row(&lists(0.0, &[(start, play)]), 0, 8);
    let plateau = |plateau| Play { plateau, ..PLAY };
    let shaped = |width| Play {
        shape: Some("hann"),
        width,
        ..PLAY
    };
    assert_eq!(number(one(1e300, PLAY)), Some(10));
    assert_eq!(number(one(f64::MAX, PLAY)), Some(10));
    let fast = Channel {
        rate: 1e300,
        ..channel(0)
    };
    let sampled = lists(0.0, &[(1e300, PLAY)]).sample(&fast, None, &mut [0.0; 8], 1);
    assert_eq!(number(sampled), Some(8));
    assert_eq!(one(0.0, plateau(8.0)), Ok(vec![1.0; 8]));
    assert_eq!(number(one(1.0, plateau(8.0))), Some(12));
    assert_eq!(number(one(0.0, plateau(f64::MAX))), Some(12));
    assert_eq!(number(one(0.0, shaped(9.0))), Some(12));
    assert_eq!(number(one(0.0, shaped(f64::MAX))), Some(12));
    let no_list = |name, crosstalk| {
        let of = Channel { name, ..channel(0) };
        number(lists(0.0, &[]).sample(&of, crosstalk, &mut [0.0; 8], 1))
    };
    let crosstalk = Crosstalk {
        names: &["a", "x"],
        factors: &[1.0, 0.0, 0.0, 1.0],
    };
    assert_eq!(no_list("x", None), Some(7));
    assert_eq!(no_list("a", Some(&crosstalk)), Some(18));
}

fn bins() {
    let mut tables = tables(0.0);
    tables.add_hann("cosine");
    let shaped = |shape, frequency| Play {
        shape: Some(shape),
        width: 2.0,
        frequency,
        ..PLAY
    };
    // No shape and a width is a plateau; width 0 is no shape; a zero amplitude stores nothing.
    let plateau = Play {
        plateau: 2.0,
        ..PLAY
    };
    let plain = Play { width: 2.0, ..PLAY };
    let narrow = Play {
        shape: Some("hann"),
        ..plateau
    };
    let silent = Play {
        amplitude: -0.0,
        ..PLAY
    };
    let plays = [
        plateau,
        shaped("hann", -0.0),
        shaped("cosine", 0.0),
        plain,
        narrow,
        silent,
        shaped("hann", 1.0),
    ];
    for (place, play) in plays.into_iter().enumerate() {
        run(&mut tables, Command::Play(play), -(place as f64));
    }
    let bins = tables.lists().unwrap().bins("a").unwrap();
    let of = |bin: &Bin| (bin.hann, bin.width, bin.plateau, bin.local.to_bits());
    assert_eq!(bins.len(), 3);
    assert_eq!(of(&bins[0]), (false, 0.0, 2.0, 0));
    assert_eq!(of(&bins[1]), (true, 2.0, 0.0, (-0.0f64).to_bits()));
    assert_eq!(of(&bins[2]), (true, 2.0, 0.0, 1f64.to_bits()));
    assert_eq!(times(&bins[0]), [-4.0, -3.0, 0.0]);
    assert_eq!(times(&bins[1]), [-2.0, -1.0]);
    assert_eq!(times(&bins[2]), [-6.0]);
}

/// More than the map's first table has room for, each met twice.
fn many_bins() {
    let plays: Vec<_> = (0..200u32)
        .map(|n| {
            let frequency = f64::from(n * 7 % 100);
            (f64::from(n), Play { frequency, ..PLAY })
        })
        .collect();
    let bins = lists(0.0, &plays).bins("a").unwrap();
    assert_eq!(bins.len(), 100);
    for (n, bin) in bins.iter().enumerate() {
        assert_eq!(bin.local, (n * 7 % 100) as f64);
        assert_eq!(times(bin), [n as f64, n as f64 + 100.0]);
    }
}

/// A Hann pulse with a plateau and drag, the sums of document 01 written out.
fn mixing() {
    let play = Play {
        shape: Some("hann"),
        amplitude: 0.75,
        width: 3.0,
        plateau: 1.5,
        drag: 0.125,
        frequency: 0.03,
        phase: 0.4,
        ..PLAY
    };
    let mut tables = tables(0.0);
    run(&mut tables, Command::SetFreq("a", 0.21), 0.0);
    run(&mut tables, Command::Play(play), 1.1);
    let of = Channel {
        name: "a",
        rate: 4.0,
        delay: 0.25,
        level: -1,
    };
    let mut samples = [0.0; 64];
    let lists = tables.lists().unwrap();
    lists.sample(&of, None, &mut samples, 2).unwrap();

    let (start, offset) = placed(1.1 + 0.25, 4.0, -1).unwrap();
    let points = hann(3.0, 1.5, offset, 4.0).unwrap();
    let pulse = lists.bins("a").unwrap()[0].pulses[0];
    let turn = phaser(0.4).unwrap().map(|part| 0.75 * part);
    same(&pulse.amp, &turn);
    same(
        &pulse.drag,
        &product(turn, [0.0, 1.0]).map(|part| part * 0.125),
    );
    let dt = 0.25;
    let phase0 = 0.21 * (start as f64 * dt - 0.25) + (0.03 * offset) * dt;
    let mut carrier = phaser(phase0).unwrap();
    let rotation = phaser((0.21 + 0.03) * dt).unwrap();
    let mut expected = [[0.0; 32]; 2];
    for (at, point) in points.iter().enumerate() {
        let left = if at == 0 { 0.0 } else { points[at - 1] };
        let right = points.get(at + 1).copied().unwrap_or(0.0);
        let slope = (right - left) / 2.0;
        let part = |k: usize| pulse.amp[k] * point + pulse.drag[k] * 4.0 * slope;
        let sample = product(carrier, [part(0), part(1)]);
        expected[0][start + at] += sample[0];
        expected[1][start + at] += sample[1];
        carrier = product(carrier, rotation);
    }
    same(&samples, &expected.concat());
    assert_eq!((start, offset, points.len()), (5, 0.5, 18));
    assert_eq!(points[6..12], [1.0; 6]);
    assert!(points[5] < 1.0 && points[12] < 1.0);
}

fn product(a: [f64; 2], b: [f64; 2]) -> [f64; 2] {
    [a[0] * b[0] - a[1] * b[1], a[0] * b[1] + a[1] * b[0]]
}

fn crosstalk() {
    let on = |channel, amplitude| Play {
        channel,
        amplitude,
        plateau: 1.0,
        ..PLAY
    };
    let lists = lists(
        0.0,
        &[
            (1.0, on("b", 3.0)),
            (0.0, on("a", 2.0)),
            (1.0, on("c", 5.0)),
        ],
    );
    let names = ["b", "a"];
    let factors = [1.0, 0.5, 0.25, 10.0];
    let crosstalk = Crosstalk {
        names: &names,
        factors: &factors,
    };
    let sampled = |name| {
        let of = Channel { name, ..channel(0) };
        let mut row = [0.0; 2];
        lists.sample(&of, Some(&crosstalk), &mut row, 1).unwrap();
        row
    };
    assert_eq!(sampled("a"), [20.0, 0.75]);
    assert_eq!(sampled("b"), [1.0, 3.0]);
    assert_eq!(sampled("c"), [0.0, 5.0]);
}

/// One to four sections are the pipeline, more the cascade: a section that changes nothing makes five of two.
fn sections() {
    let two = [
        [0.5, 0.25, -0.125, 1.0, 0.5, -0.25],
        [1.5, -0.75, 0.375, 1.0, -0.5, 0.125],
    ];
    let nothing = [1.0, 0.0, 0.0, 1.0, 0.0, 0.0];
    let five = [two[0], nothing, two[1], nothing, nothing];
    let samples = [1.0, -2.0, 0.5, 0.0, 3.0, 1.0, 1.0, -1.0];
    let (mut pipeline, mut cascade, mut none) = (samples, samples, samples);
    rows::iir(&mut pipeline, 2, two.as_flattened());
    rows::iir(&mut cascade, 2, five.as_flattened());
    rows::iir(&mut none, 2, &[]);
    assert_eq!(pipeline, cascade);
    assert_eq!(none, samples);
    let (mut first, mut second) = ([1.0, -2.0, 0.5, 0.0], [3.0, 1.0, 1.0, -1.0]);
    rows::iir(&mut first, 1, two.as_flattened());
    rows::iir(&mut second, 1, two.as_flattened());
    same(&pipeline, &[first, second].concat());
}

/// The lone steps where both together give another sample (docs/DIFFERENCES.md).
fn lone_steps() {
    let unit = [1.0, 0.0, 0.0, 1.0];
    let mut samples = [-0.0, -0.0];
    rows::iq(&mut samples, &unit);
    same(&samples, &[-0.0, -0.0]);
    rows::mixer(&mut samples, &unit, &[0.0, 0.0]);
    same(&samples, &[0.0, 0.0]);
    let mut samples = [-0.0, 0.0];
    rows::offset(&mut samples, &[-0.0, -0.0]);
    same(&samples, &[-0.0, 0.0]);
    rows::mixer(&mut samples, &unit, &[-0.0, -0.0]);
    same(&samples, &[0.0, 0.0]);
    let mut samples = [f64::INFINITY, 0.0];
    rows::offset(&mut samples, &[0.0, 0.0]);
    same(&samples, &[f64::INFINITY, 0.0]);
    rows::mixer(&mut samples, &unit, &[0.0, 0.0]);
    assert!(samples[0] == f64::INFINITY && samples[1].is_nan());
    let mut row = [0.0];
    rows::offset(&mut row, &[1.0]);
    same(&row, &[1.0]);
}

/// Three taps of one: the third sum is slot 0, slot 1, slot 2, and the fourth begins with the newest sample, in slot 0.
fn taps() {
    let tiny = f64::EPSILON / 2.0;
    let mut row = [1.0, tiny, tiny, 1.0, 0.0];
    rows::fir(&mut row, 1, &[1.0, 1.0, 1.0]);
    same(&row, &[1.0, 1.0, 1.0, 1.0, 1.0 + tiny]);
    // The product is rounded to 1 before it is added.
    let e = f64::EPSILON;
    let mut row = [-1.0, 1.0 - e];
    rows::fir(&mut row, 1, &[1.0 + e, 1.0]);
    same(&row, &[-1.0 - e, 0.0]);
    let mut rows_of_two = [1.0, 2.0, 3.0, 4.0];
    rows::fir(&mut rows_of_two, 2, &[1.0, 10.0, 100.0]);
    assert_eq!(rows_of_two, [1.0, 12.0, 3.0, 34.0]);
    rows::mixer(&mut rows_of_two, &[1.0, 0.0, 0.0, 1.0], &[0.5, -4.0]);
    assert_eq!(rows_of_two, [1.5, 12.5, -1.0, 30.0]);
}
