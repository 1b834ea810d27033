//! The comparisons that `cargo run -p differential` makes, as tests.

use differential::kinds::{self, SEEDS};
use differential::run::Run;
use differential::stores::GOOD;

/// All held; how many there were is told (`cargo test -- --nocapture` shows it).
fn held(name: &str, run: &Run) {
    run.assert();
    let (plain, proved) = (run.plain.passed, run.proved.passed);
    let source = run.with_source;
    println!("{name}: plain {plain}, proved {proved}, with the source {source}");
}

#[test]
fn recorded_answers() {
    let run = kinds::recorded();
    held("recorded answers", &run);
    let few = "few recorded answers";
    assert!(run.proved.passed >= 260, "{few}: {}", run.proved.passed);
}

#[test]
fn recorded_maps() {
    let run = kinds::recorded_maps();
    held("recorded glyph maps", &run);
    let few = "few recorded glyph maps";
    assert!(run.proved.passed >= 260, "{few}: {}", run.proved.passed);
}

#[test]
fn built_cases() {
    let run = kinds::built();
    held("built cases", &run);
    let few = "few built cases";
    assert!(run.proved.passed >= 60, "{few}: {}", run.proved.passed);
}

#[test]
fn worked_examples() {
    held("examples", &kinds::examples());
}

#[test]
fn edges() {
    held("edges", &kinds::edges());
}

#[test]
fn axes_and_modes() {
    held("axes and modes", &kinds::axes_and_modes());
}

#[test]
fn all_small_jobs() {
    held("small jobs", &kinds::small());
}

#[test]
fn all_short_record_sequences() {
    held("record sequences", &kinds::records());
}

#[test]
fn records_of_every_form() {
    held("forms", &kinds::forms());
}

#[test]
fn every_damage_to_one_job() {
    held("damages", &kinds::each_damage());
}

#[test]
fn random_jobs() {
    held("random jobs", &kinds::random(&SEEDS));
}

#[test]
fn large_random_jobs() {
    held("large random jobs", &kinds::large(&SEEDS));
}

#[test]
fn wide_random_jobs() {
    held("wide random jobs", &kinds::wide(&SEEDS));
}

#[test]
fn damaged_jobs() {
    held("damaged jobs", &kinds::damaged(&SEEDS));
}

#[test]
fn plain_reading_around_its_sizes() {
    kinds::sizes(&SEEDS).plain.assert();
}

#[test]
fn where_two_sets_part() {
    held("parts", &kinds::parts(&SEEDS));
}

#[test]
fn stores_most_of_them_damaged() {
    let run = kinds::stores(&SEEDS);
    held("stores", &run);
    let damaged = run.plain.passed - run.plain.passed / GOOD as u64;
    assert!(damaged >= 200_000, "few damaged stores: {damaged}");
}
