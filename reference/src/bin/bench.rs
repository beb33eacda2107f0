//! Measures the proved library and the independent implementation on the same histories.
//!
//! `bench [milliseconds]` spends about so long on each scenario and engine. Without the
//! feature `proved` only the independent implementation is measured.

use reference::bench::{deepest, scenarios, time, Scenario, Timing};
use reference::compare::Engine;
use reference::engines::engines;
use std::process::ExitCode;
use std::time::Duration;

const MILLISECONDS: u64 = 200;

const LEGEND: &str = "\
ns     of a call, in the middle round
noise  from the quickest tenth of the rounds to the slowest, as a part of the middle one
MB/s   millions of octets taken in a second
stack  octets that the deepest call uses
ratio  of the times, each round with the one beside it
With spaces: in front of the destination that is sent, eight; the stored one has none.
A pick is two calls, one for the number and one for the place. The scenarios behind it are on
receivers of accounts that owe sixteen receipts; of a receipt and its answer each is a call.
";

type Engines = Vec<&'static (dyn Engine + Sync)>;

fn main() -> ExitCode {
    let milliseconds = match std::env::args().nth(1).map(|word| word.parse()) {
        None => MILLISECONDS,
        Some(Ok(milliseconds)) => milliseconds,
        Some(Err(_)) => {
            eprintln!("usage: bench [milliseconds]");
            return ExitCode::from(2);
        }
    };
    let engines = engines();
    head(&engines);
    for scenario in scenarios() {
        measure(&engines, &scenario, Duration::from_millis(milliseconds));
    }
    print!("{LEGEND}");
    ExitCode::SUCCESS
}

fn head(engines: &Engines) {
    print!("{:28}", "");
    for engine in engines {
        print!("{:>44}", engine.name());
    }
    println!();
    print!("{:28}", "scenario");
    for _ in engines {
        print!(
            "{:>11} {:>8} {:>11} {:>10} ",
            "ns", "noise", "MB/s", "stack"
        );
    }
    if engines.len() > 1 {
        print!("{:>8}", "ratio");
    }
    println!();
}

fn measure(engines: &Engines, scenario: &Scenario, long: Duration) {
    let timed: Vec<&dyn Engine> = engines.iter().map(|&e| e as &dyn Engine).collect();
    let timings = time(&timed, scenario, long);
    print!("{:28}", scenario.name);
    for (engine, timing) in engines.iter().zip(&timings) {
        print!(
            "{:>11.0} {:>8} {:>11} {:>10} ",
            timing.median(),
            format!("({:.0}%)", 100.0 * timing.spread()),
            rate(scenario, timing),
            deepest(*engine, scenario)
        );
    }
    if let [reference, proved] = &timings[..] {
        print!("{:>8.2}", proved.ratio_to(reference));
    }
    println!();
}

fn rate(scenario: &Scenario, timing: &Timing) -> String {
    match scenario.octets() {
        0 => "-".to_string(),
        octets => {
            let nanoseconds = timing.median() * scenario.calls() as f64;
            format!("{:.1}", octets as f64 * 1000.0 / nanoseconds)
        }
    }
}
