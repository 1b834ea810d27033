//! `differential [SEEDS [FROM]]`: all comparisons, with a line for each kind of jobs and a
//! last line of counts. Exit status 0 when all held.

use differential::kinds;
use differential::run::Run;
use differential::Tally;
use std::process::ExitCode;
use std::time::Instant;

fn main() -> ExitCode {
    let numbers: Option<Vec<u64>> = std::env::args().skip(1).map(|a| a.parse().ok()).collect();
    let seeds = match numbers.as_deref() {
        Some([]) => kinds::SEEDS,
        Some([seeds]) => 0..*seeds,
        Some([seeds, from]) => *from..from + seeds,
        _ => {
            eprintln!("usage: differential [SEEDS [FROM]]");
            return ExitCode::FAILURE;
        }
    };
    let seeds = &seeds;
    if !oracle::PRESENT {
        println!("built without the source: recorded answers and laws only");
    }
    println!("the proved library is asked some of the jobs");
    println!("{:30} {:^17} {:^28}", "", "plain reading", "proved library");
    println!(
        "{:30} {:>9} {:>7} {:>9} {:>7} {:>11} {:>8}",
        "", "passed", "failed", "passed", "failed", "with source", "seconds"
    );
    let mut all = Tally::default();
    let runs: [(&str, &dyn Fn() -> Run); 17] = [
        ("recorded answers", &kinds::recorded),
        ("recorded glyph maps", &kinds::recorded_maps),
        ("built cases", &kinds::built),
        ("examples", &kinds::examples),
        ("edges", &kinds::edges),
        ("axis counts and modes", &kinds::axes_and_modes),
        ("all small jobs", &kinds::small),
        ("all short record sequences", &kinds::records),
        ("records of every form", &kinds::forms),
        ("every damage to one job", &kinds::each_damage),
        ("random jobs", &|| kinds::random(seeds)),
        ("large random jobs", &|| kinds::large(seeds)),
        ("wide random jobs", &|| kinds::wide(seeds)),
        ("damaged jobs", &|| kinds::damaged(seeds)),
        ("plain reading around its sizes", &|| kinds::sizes(seeds)),
        ("where two sets part", &|| kinds::parts(seeds)),
        ("stores, most of them damaged", &|| kinds::stores(seeds)),
    ];
    for (name, run) in runs {
        let start = Instant::now();
        let run = run();
        tell(name, &run, start.elapsed().as_secs_f64());
        all.add(run.plain);
        all.add(run.proved);
    }
    println!("{} passed, {} failed", all.passed, all.failed);
    if all.failed == 0 {
        ExitCode::SUCCESS
    } else {
        ExitCode::FAILURE
    }
}

/// The line of a run, and what did not hold.
fn tell(name: &str, run: &Run, seconds: f64) {
    let Run { plain, proved, .. } = run;
    println!(
        "{name:30} {:9} {:7} {:9} {:7} {:11} {seconds:8.1}",
        plain.passed, plain.failed, proved.passed, proved.failed, run.with_source
    );
    for what in plain.said.iter().chain(&proved.said) {
        println!("    {what}");
    }
}
