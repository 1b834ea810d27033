//! From nothing to a value read back: README shows the function `main`.

fn main() -> Result<(), ivs::Error> {
    let mut job = ivs::JobWriter::new(1);
    let bold = job.region(&[(0, 0x4000, 0x4000)])?; // start, peak, end as F2Dot14; one triple an axis
    let light = job.region(&[(-0x4000, -0x4000, 0)])?;
    job.set(&[(bold, 10)])?;
    job.set(&[(light, -300)])?;
    let packed = job.job().pack(ivs::Mode::Deduplicating)?;
    let value = packed.value(1, light).unwrap_or_default();
    println!("set 1, light: {value}");
    Ok(())
}
