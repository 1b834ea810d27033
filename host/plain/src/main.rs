//! `plain JOB AXES MODE`: what the rules say of one job file, by the plain
//! reading: the numbers of a done build with its store, or the refusal.

use std::process::ExitCode;

fn main() -> ExitCode {
    let arguments: Vec<String> = std::env::args().skip(1).collect();
    let [file, axes, mode] = arguments.as_slice() else {
        eprintln!("usage: plain JOB AXES MODE   (MODE: 0 deduplicating, 1 implicit indices)");
        return ExitCode::from(1);
    };
    let (Ok(axes), Ok(mode)) = (axes.parse(), mode.parse()) else {
        eprintln!("plain: AXES and MODE are numbers, not '{axes}' and '{mode}'");
        return ExitCode::from(1);
    };
    let job = match std::fs::read(file) {
        Ok(job) => job,
        Err(error) => {
            eprintln!("plain: cannot read {file}: {error}");
            return ExitCode::from(1);
        }
    };
    match plain::build(axes, mode, &job, &plain::Sizes::PLENTY) {
        Ok(done) => {
            print_done(&done);
            ExitCode::SUCCESS
        }
        Err(refused) => {
            eprintln!("plain: refused: {refused}");
            ExitCode::from(2)
        }
    }
}

fn print_done(done: &plain::Done) {
    let counts = &done.counts;
    println!("store bytes   {}", counts.store_bytes);
    println!("subtables     {}", counts.subtables);
    println!("regions kept  {}", counts.regions_kept);
    println!("distinct ids  {}", counts.distinct_ids);
    println!("shapes        {}", counts.shapes);
    println!("merges        {}", counts.merges);
    println!("pairs weighed {}", counts.pairs);
    println!(
        "modelled size {} to {}",
        counts.size_before, counts.size_after
    );
    println!("forecast      {}", counts.forecast);
    println!("ids           {:?}", done.ids);
    for (id, word) in done.map.iter().enumerate() {
        println!("id {id} at      ({}, {})", word >> 16, word & 0xFFFF);
    }
    for entry in done.log.chunks(3) {
        println!(
            "joined        {} and {}, gain {}",
            entry[0], entry[1], entry[2]
        );
    }
    for origin in done.origins.chunks(2) {
        println!("shape {}       in group {}", origin[0], origin[1]);
    }
    let hex: String = done
        .store
        .iter()
        .map(|byte| format!("{byte:02x}"))
        .collect();
    println!("store         {hex}");
}
