//! The limits of a job (J3), in one place.

/// The most axes.
///
/// ```
/// assert_eq!(ivs::JobWriter::new(ivs::limits::AXES + 1).region(&[]), Err(ivs::JobError::Axes(65)));
/// ```
pub const AXES: usize = 64;

/// The most regions.
///
/// ```
/// let mut job = ivs::JobWriter::new(1);
/// for peak in 0..ivs::limits::REGIONS {
///     job.region(&[(0, peak as i16, 0x4000)])?;
/// }
/// assert_eq!(job.region(&[(0, -1, 0)]), Err(ivs::JobError::RegionsFull));
/// # Ok::<(), ivs::JobError>(())
/// ```
pub const REGIONS: usize = 32_767;

/// The most records.
///
/// ```
/// let job = vec![0; 12 * (ivs::limits::RECORDS + 1)];
/// assert_eq!(ivs::pack(1, 0, &job).unwrap_err().name(), "BAD_JOB_LENGTH");
/// ```
pub const RECORDS: usize = 1_048_576;
