//! The Rust's test copy as a program that reads a job, for the time of a whole job beside `bench`'s: it knows the lines that the timed jobs
//! have. Both are started anew each time, read the text and answer; the best of many turns counts.
use crate::commands::output;
use std::time::Instant;
use theirs::lists::Channel;
use theirs::osc::Osc;
use theirs::tables::{Command, Item, Play, Tables};

/// Reads a job on standard input and answers it.
pub fn drive() {
    let text = std::io::read_to_string(std::io::stdin()).expect("text");
    let mut tables = Tables::new(0.0, 0.0, false).expect("tables");
    let (mut items, mut samples, mut rows) = (Vec::new(), Vec::new(), 1);
    for line in text.lines() {
        let words: Vec<&str> = line.split(' ').collect();
        let field = |k: usize| words[k].split_once('=').expect("a field").1;
        let number = |k: usize| number(field(k));
        match words[0] {
            "tables" => {
                tables = Tables::new(number(1), number(2), field(3) == "1").expect("tables")
            }
            "channel" => {
                let osc = Osc {
                    base: number(2),
                    delta: number(3),
                    phase: number(4),
                };
                tables.add_channel(words[1], osc).expect("a channel");
            }
            "shape" => tables.add_hann(words[1]),
            "play" => {
                let play = Play {
                    channel: field(1),
                    shape: Some(field(2)).filter(|name| !name.is_empty()),
                    amplitude: number(3),
                    width: number(4),
                    plateau: number(5),
                    drag: number(6),
                    frequency: number(7),
                    phase: number(8),
                    flexible: field(9) == "1",
                };
                items
                    .push(Item::new(&Command::Play(play), number(10), number(11)).expect("a play"));
                continue;
            }
            "run" => {
                let (ran, refusal) = tables.execute(&std::mem::take(&mut items));
                assert_eq!(refusal, None);
                println!("ok {ran}");
                continue;
            }
            "rows" => {
                rows = words[1].parse().expect("a count");
                samples = vec![0.0; rows * words[2].parse::<usize>().expect("a length")];
            }
            "sample" => {
                let of = Channel {
                    name: words[1],
                    rate: number(2),
                    delay: number(3),
                    level: field(4).parse().expect("a level"),
                };
                let lists = tables.lists().expect("lists");
                let (mixed, refusal) = lists.sample_counted(&of, None, &mut samples, rows);
                assert!(refusal.is_ok(), "sampled");
                println!("ok {mixed}");
                continue;
            }
            "print" => {
                for (k, row) in samples.chunks(samples.len() / rows).enumerate() {
                    let row: String = row
                        .iter()
                        .map(|x| format!(" {:016x}", x.to_bits()))
                        .collect();
                    println!("row {}{row}", k + 1);
                }
            }
            word => panic!("no line of a timed job: {word}"),
        }
        println!("ok 0");
    }
}

/// Sixteen hex digits or a decimal.
fn number(word: &str) -> f64 {
    match u64::from_str_radix(word, 16) {
        Ok(bits) if word.len() == 16 => f64::from_bits(bits),
        _ => word.parse().expect("a number"),
    }
}

/// 1,024 plays into two rows of 65,536 samples.
fn job(play: &str) -> String {
    let head = "tables amp_tol=0 time_tol=1e-12 oversize=0\nchannel q0 base=1e7 delta=2.5e6 phase=0.125\nshape hann hann\n";
    let plays: String = (0..1024)
        .map(|k| {
            format!(
                "play ch=q0 {play} freq=1e6 phase=0.0{k} flex=0 start={}e-9 span=6e-8\n",
                64 * k
            )
        })
        .collect();
    format!("{head}{plays}run\nrows 2 65536\nsample q0 rate=1e9 delay=0 level=0\n")
}

/// `program` is what runs `bench`, word by word.
pub fn time(program: &[String]) {
    let me = std::env::current_exe().expect("a program");
    let theirs = [me.to_str().expect("a path").to_string(), "drive".into()];
    let jobs = [
        (
            "plateaus of 60 samples",
            "shape= amp=0.5 width=0 plateau=6e-8 drag=0",
        ),
        (
            "Hann with drag, 60 samples",
            "shape=hann amp=0.5 width=4e-8 plateau=2e-8 drag=1e-9",
        ),
    ];
    for (what, play) in jobs {
        let text = job(play);
        let printed = text.clone() + "print\n";
        assert_eq!(
            output(program, &printed),
            output(&theirs, &printed),
            "equal answers and rows"
        );
        let mut best = [f64::INFINITY; 2];
        for _ in 0..60 {
            for (best, program) in best.iter_mut().zip([program, &theirs[..]]) {
                let start = Instant::now();
                output(program, &text);
                *best = best.min(start.elapsed().as_secs_f64() * 1e3);
            }
        }
        let [ours, theirs] = best;
        println!(
            "a job of 1,024 plays, {what}: ours {ours:.2} ms, theirs {theirs:.2} ms, ratio {:.2}",
            ours / theirs
        );
    }
}
