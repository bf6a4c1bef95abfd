//! Our exported functions beside Rust's, or beside the true value, over many inputs: one file a subject. See compare/run and compare/bench.
mod bench;
mod calls;
mod cases;
mod commands;
mod drive;
mod fir;
mod fixed;
mod host;
mod ieee;
mod iir;
mod jobs;
mod mixer;
mod near;
mod quant;
mod replays;
mod report;
mod rng;
mod rows;
mod sampling;
mod series;
mod timed;
mod timed_sampling;
mod trig;

use std::process::ExitCode;

fn main() -> ExitCode {
    let scale = match std::env::args().nth(1).as_deref() {
        Some("bench") => {
            bench::run();
            timed::run();
            timed_sampling::sampling();
            return ExitCode::SUCCESS;
        }
        Some("bench_sampling") => {
            timed_sampling::sampling();
            return ExitCode::SUCCESS;
        }
        Some("bench_commands") => {
            timed::run();
            return ExitCode::SUCCESS;
        }
        Some("growth") => {
            timed_sampling::growth();
            return ExitCode::SUCCESS;
        }
        Some("near") => return near::run(),
        Some("replays") => {
            replays::print(std::env::args().nth(2).as_deref() == Some("answers"));
            return ExitCode::SUCCESS;
        }
        Some("commands") => {
            let program: Vec<String> = std::env::args().skip(2).collect();
            let lists = commands::compare(200, &program);
            let calls = calls::compare(200, &program);
            return if lists == ExitCode::SUCCESS {
                calls
            } else {
                lists
            };
        }
        Some("sampling") => {
            let program: Vec<String> = std::env::args().skip(2).collect();
            return sampling::compare(400, &program);
        }
        Some("jobs") => {
            let program: Vec<String> = std::env::args().skip(3).collect();
            let texts = std::env::args().nth(2).and_then(|n| n.parse().ok());
            return jobs::compare(texts.unwrap_or(100), &program);
        }
        Some("drive") => {
            drive::drive();
            return ExitCode::SUCCESS;
        }
        Some("bench_jobs") => {
            let program: Vec<String> = std::env::args().skip(2).collect();
            drive::time(&program);
            return ExitCode::SUCCESS;
        }
        Some(word @ ("stored_lists" | "stored_answers")) => {
            let answers = word == "stored_answers";
            commands::stored(answers);
            calls::stored(answers);
            sampling::stored(answers);
            return ExitCode::SUCCESS;
        }
        Some(word) => match word.parse() {
            Ok(scale) => scale,
            Err(_) => {
                eprintln!("usage: compare [SCALE | bench | bench_commands | bench_sampling | growth | near | replays [answers] | commands PROGRAM.. | sampling PROGRAM.. | jobs TEXTS PROGRAM.. | bench_jobs PROGRAM.. | drive | stored_lists | stored_answers]");
                return ExitCode::from(2);
            }
        },
        None => 1,
    };
    let mut report = report::Report::new();
    ieee::compare(&mut report, scale);
    trig::compare(&mut report, scale);
    quant::compare(&mut report, scale);
    mixer::compare(&mut report, scale);
    iir::compare(&mut report, scale);
    fir::compare(&mut report, scale);
    report.close()
}
