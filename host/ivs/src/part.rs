//! Where two sets of a job part.

use crate::building::job_words;
use crate::raw;
use crate::refusals::Refused;

/// How the first of two sets stands to the second, in the order of rows: by their values,
/// region after region.
///
/// ```
/// let ends = [[3, 0, 0, 0, 0, 0, 0, 0, 0, 0, 0, 0]; 2].concat(); // two sets, both empty
/// assert_eq!(ivs::part(1, &ends, 0, 1)?, ivs::Parted::Equal);
/// # Ok::<(), ivs::Refused>(())
/// ```
#[derive(Clone, Copy, Debug, PartialEq, Eq)]
pub enum Parted {
    /// They have the same values, so mode 0 gives them one row.
    Equal,
    /// The first has the smaller value where they part.
    Smaller(Parting),
    /// The first has the larger value where they part.
    Larger(Parting),
}

/// Where two sets part: at the first region that they give different values, zero where a
/// set gives it none.
///
/// ```
/// let mut job = ivs::JobWriter::new(1);
/// let bold = job.region(&[(0, 0x4000, 0x4000)])?;
/// job.set(&[(bold, 10)])?;
/// job.set(&[])?;
/// let ivs::Parted::Larger(at) = job.job().part(0, 1)? else { panic!() };
/// assert_eq!((at.region, at.first, at.second), (bold.into(), 10, 0));
/// # Ok::<(), ivs::Error>(())
/// ```
#[derive(Clone, Copy, Debug, PartialEq, Eq)]
pub struct Parting {
    /// The region's index: regions are indexed in the order in which values first name them.
    pub index: u32,
    /// The number in the job of the region that was first named so. (Others may have the same
    /// coordinates.)
    pub region: u32,
    /// What the first set has there.
    pub first: i32,
    /// What the second has there.
    pub second: i32,
}

/// Where two sets of a job part; sets go by their numbers in the job, from 0.
///
/// ```
/// use ivs::{part, Parted, Parting};
///
/// let mut job = ivs::JobWriter::new(1);
/// let bold = job.region(&[(0, 0x4000, 0x4000)])?;
/// let light = job.region(&[(-0x4000, -0x4000, 0)])?;
/// job.set(&[(light, 7), (bold, 10)])?;               // light is named first: index 0
/// job.set(&[(bold, -3), (light, 7)])?;
/// job.set(&[(light, 7), (bold, 10)])?;
/// let job = job.finish();
/// let at = Parting { index: 1, region: bold.into(), first: 10, second: -3 };
/// assert_eq!(part(1, &job, 0, 1), Ok(Parted::Larger(at)));
/// let at = Parting { first: -3, second: 10, ..at };
/// assert_eq!(part(1, &job, 1, 2), Ok(Parted::Smaller(at)));
/// assert_eq!(part(1, &job, 0, 2), Ok(Parted::Equal));
///
/// let refused = part(1, &job, 0, 3).unwrap_err();
/// assert_eq!((refused.number, refused.name()), (64, "NO_SET"));
/// # Ok::<(), ivs::JobError>(())
/// ```
pub fn part(axes: u32, job: &[u8], first: u32, second: u32) -> Result<Parted, Refused> {
    let mut work = vec![0; job_words(axes, job)];
    part_with(axes, job, first, second, &mut work)
}

/// [`part`] in lent memory: work as for a build, and left as by it.
///
/// ```
/// let ends = [[3, 0, 0, 0, 0, 0, 0, 0, 0, 0, 0, 0]; 2].concat(); // two sets, both empty
/// let mut work = vec![7; ivs::work_words(2, 0)];
/// assert_eq!(ivs::part_with(1, &ends, 0, 1, &mut work), Ok(ivs::Parted::Equal));
/// assert!(work.iter().all(|&word| word == 0));
/// let refused = ivs::part_with(1, &ends, 0, 1, &mut work[1..]).unwrap_err();
/// assert_eq!((refused.number, refused.short), (4, Some(ivs::Short::Work(64))));
/// ```
pub fn part_with(
    axes: u32,
    job: &[u8],
    first: u32,
    second: u32,
    work: &mut [u32],
) -> Result<Parted, Refused> {
    let mut report = [0; 16];
    if part_report(axes, job, first, second, work, &mut report) != 0 {
        return Err(Refused::of(&report).short_of(axes, job, work.len()));
    }
    // The values are two's complement of 64 bits, of numbers that 32 hold.
    let parting = Parting {
        index: report[3] as u32,
        region: report[4] as u32,
        first: report[5] as i32,
        second: report[6] as i32,
    };
    Ok(match report[2] {
        0 => Parted::Equal,
        1 => Parted::Smaller(parting),
        _ => Parted::Larger(parting),
    })
}

/// [`part_with`], with the report as the library fills it (include/ivs.h). The answer is the
/// refusal number, 0 where the sets were compared.
///
/// ```
/// let mut report = [9; 16];
/// assert_eq!(ivs::part_report(1, &[], 0, 0, &mut [], &mut report), 64); // no sets at all
/// assert_eq!((report[0], report[15]), (64, 0));
/// ```
pub fn part_report(
    axes: u32,
    job: &[u8],
    first: u32,
    second: u32,
    work: &mut [u32],
    report: &mut [u64; 16],
) -> u32 {
    raw::part(axes, job, first, second, work, report)
}
