//! A refusal in the program's own words: what the library calls mode 0 and mode 1 is here
//! `--mode dedup` and `--mode implicit`.

use ivs::Refused;

/// The modes by number.
pub const MODES: [&str; 2] = ["dedup", "implicit"];

const SETS_FULL: u32 = 9;
const SHAPES_FULL: u32 = 10;

/// The refusal of a job, explained. Of the two that only one mode gives, whether the other
/// takes the job is tried, so that nobody is sent to and fro.
pub fn of(axes: u32, job: &[u8], refused: &Refused) -> String {
    let (what, other) = match refused.number {
        SETS_FULL => (
            "--mode implicit takes 65,535 sets, and this ends one more",
            0,
        ),
        SHAPES_FULL => (
            "the sets have more than 1,024 shapes, too many for --mode dedup",
            1,
        ),
        _ => return refused.explain(axes, job),
    };
    let remedy = match ivs::forecast(axes, other, job) {
        Ok(_) => format!("--mode {} takes them", MODES[other as usize]),
        Err(refused) => format!(
            "--mode {} does not take them either ({} {}), so split the job",
            MODES[other as usize],
            refused.number,
            refused.name()
        ),
    };
    format!("{}: {what}; {remedy}", refused.head())
}
