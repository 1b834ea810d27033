//! The text form of jobs (`fenikezo pack --help` says it). A job has no names, so in the
//! text of a job region 0 is `r0`, and so on.

use crate::f2dot14;
use crate::job::Job;
use crate::near::nearest;
use crate::wrong::Wrong;
use ivs::{JobWriter, Tent};
use std::collections::HashMap;
use std::fmt::Write;

/// A job that was written as a text.
#[derive(Debug, PartialEq, Eq)]
pub struct Parsed {
    pub axes: u32,
    /// The regions' names, by number.
    pub names: Vec<String>,
    /// The line of each region, and of each set.
    pub region_lines: Vec<usize>,
    pub set_lines: Vec<usize>,
    /// The job's bytes.
    pub job: Vec<u8>,
}

/// The job of a text, or all that is wrong with it.
pub fn parse(bytes: &[u8]) -> Result<Parsed, Vec<Wrong>> {
    if bytes.starts_with(b"\xFF\xFE") || bytes.starts_with(b"\xFE\xFF") {
        let what = "the text is UTF-16; save it as UTF-8".to_string();
        return Err(vec![Wrong::at(1, 1, what)]);
    }
    let mut parsing = Parsing::default();
    for (number, line) in (1..).zip(bytes.split(|&byte| byte == b'\n')) {
        parsing.number = number;
        parsing.bytes(line);
    }
    parsing.end()
}

const BOM: &[u8] = b"\xEF\xBB\xBF";
const NO_AXES: &str = "no axis count yet; begin with 'axes N'";

/// A region that a line has named.
#[derive(Clone, Copy)]
enum Named {
    /// By its number, with the first region of the same coordinates.
    Region { number: u16, first: u16 },
    /// Its line is wrong, which has been said.
    Wrong,
}

#[derive(Default)]
struct Parsing<'a> {
    /// The line's number, from 1.
    number: usize,
    /// Once the axis count is known.
    writer: Option<JobWriter>,
    axes: u32,
    /// Whether a line for the axis count was there, or that none was has been said.
    axes_seen: bool,
    /// Whether the job has no more room, which has been said.
    full: bool,
    names: Vec<String>,
    lines: HashMap<&'a str, usize>,
    known: HashMap<&'a str, Named>,
    firsts: HashMap<Vec<Tent>, u16>,
    region_lines: Vec<usize>,
    set_lines: Vec<usize>,
    wrong: Vec<Wrong>,
}

impl<'a> Parsing<'a> {
    fn wrong(&mut self, what: impl Into<String>) {
        self.wrong.push(Wrong::line(self.number, what.into()));
    }

    fn wrong_at(&mut self, column: usize, what: String) {
        self.wrong.push(Wrong::at(self.number, column, what));
    }

    /// A line that may be no UTF-8, or begin with a mark.
    fn bytes(&mut self, line: &'a [u8]) {
        let line = match line.strip_prefix(BOM) {
            Some(rest) if self.number == 1 => {
                let what = "a byte order mark (BOM) begins the text; save it without one";
                self.wrong_at(1, what.to_string());
                rest
            }
            _ => line,
        };
        match std::str::from_utf8(line) {
            Ok(line) => self.line(line),
            Err(error) => {
                let (good, bad) = line.split_at(error.valid_up_to());
                let good = std::str::from_utf8(good).unwrap_or_default();
                let what = format!("byte 0x{:02X} is no UTF-8; save the text as UTF-8", bad[0]);
                self.wrong_at(good.chars().count() + 1, what);
                // A region's name is known, so that the sets that name it are not wrong too.
                if let ["region", name, _, ..] = words(good).as_slice() {
                    self.known.entry(name).or_insert(Named::Wrong);
                }
            }
        }
    }

    fn line(&mut self, line: &'a str) {
        match words(line).as_slice() {
            [] => {}
            ["axes", count @ ..] => self.axes(count),
            ["region"] => self.wrong(
                "'region' has no name; write 'region NAME START PEAK END ..', a triple an axis",
            ),
            ["region", name, coordinates @ ..] => self.region(name, coordinates),
            ["set", values @ ..] => self.set(values),
            [word, ..] => self.wrong(format!(
                "'{word}' begins no line; write 'axes N', 'region NAME START PEAK END ..' or \
                 'set NAME=VALUE ..'"
            )),
        }
    }

    fn axes(&mut self, count: &[&str]) {
        if self.writer.is_some() {
            return self.wrong("the axis count is said twice");
        }
        self.axes_seen = true;
        let count = match count {
            [] => return self.wrong("'axes' has no number; write 'axes N', 1 to 64"),
            [count] => count,
            _ => return self.wrong("'axes' has more than one number; write 'axes N', 1 to 64"),
        };
        match count.parse() {
            Ok(axes @ 1..=64) => {
                self.axes = axes;
                self.writer = Some(JobWriter::new(axes as usize));
            }
            _ => self.wrong(format!("'{count}' is no axis count; give 1 to 64")),
        }
    }

    /// Says once that there is no axis count yet.
    fn ask_axes(&mut self) {
        if !self.axes_seen {
            self.axes_seen = true;
            self.wrong(NO_AXES);
        }
    }

    fn region(&mut self, name: &'a str, coordinates: &[&str]) {
        self.ask_axes();
        if let Some(line) = self.lines.get(name) {
            let what = format!("the region '{name}' is there already, at line {line}");
            return self.wrong(what);
        }
        self.lines.insert(name, self.number);
        let before = self.wrong.len();
        if name.contains('=') {
            self.wrong(format!("'{name}' is no name; leave out '='"));
        }
        let tents = self.tents(name, coordinates);
        let named = match (self.wrong.len() == before, tents) {
            (true, Some(tents)) => self.add(name, tents),
            _ => Named::Wrong,
        };
        self.known.insert(name, named);
    }

    /// The coordinates of a region, by threes; none where some are wrong.
    fn tents(&mut self, name: &str, coordinates: &[&str]) -> Option<Vec<Tent>> {
        let mut numbers = Vec::new();
        for word in coordinates {
            match f2dot14::parse(word) {
                Some(number) => numbers.push(number),
                None => self.wrong(format!("'{word}' is no coordinate from -2 to 1.99994")),
            }
        }
        let (given, due) = (coordinates.len(), 3 * self.axes as usize);
        if due == 0 {
            return None;
        }
        if given != due {
            let axes = if due == 3 { "axis" } else { "axes" };
            self.wrong(format!(
                "'{name}' has {given} of {due} coordinates; give start, peak and end for the {} \
                 {axes}",
                self.axes
            ));
            return None;
        }
        let tents = numbers.chunks_exact(3).map(|c| (c[0], c[1], c[2]));
        (numbers.len() == given).then(|| tents.collect())
    }

    /// Adds a region whose line is right, if the job has room.
    fn add(&mut self, name: &str, tents: Vec<Tent>) -> Named {
        let Some(writer) = self.writer.as_mut().filter(|_| !self.full) else {
            return Named::Wrong;
        };
        match writer.region(&tents) {
            Ok(number) => {
                self.names.push(name.to_string());
                self.region_lines.push(self.number);
                let first = *self.firsts.entry(tents).or_insert(number);
                Named::Region { number, first }
            }
            Err(error) => {
                self.full = true;
                self.wrong(error.to_string());
                Named::Wrong
            }
        }
    }

    fn set(&mut self, words: &[&'a str]) {
        self.ask_axes();
        let (before, mut values) = (self.wrong.len(), Vec::new());
        let mut named: HashMap<u16, &str> = HashMap::new();
        for word in words {
            let Some((name, value)) = word.split_once('=') else {
                self.wrong(format!("'{word}' is no NAME=VALUE"));
                continue;
            };
            let value: Option<i32> = value.parse().ok();
            if value.is_none() {
                self.wrong(format!("'{word}': the value is no whole number of 32 bits"));
            }
            match self.known.get(name).copied() {
                None => self.unknown(name),
                Some(Named::Wrong) => {}
                Some(Named::Region { number, first }) => {
                    if let Some(other) = named.insert(first, name) {
                        self.wrong(twice(name, other));
                    }
                    values.push((number, value.unwrap_or_default()));
                }
            }
        }
        if self.wrong.len() == before && !self.full {
            self.add_set(&values);
        }
    }

    /// A region that no line before has named, and what was meant.
    fn unknown(&mut self, name: &str) {
        // Looked for as long as it is said.
        let names = self.names.iter().filter(|_| self.wrong.len() < Wrong::SAID);
        let meant = match nearest(name, names.map(String::as_str)) {
            Some(meant) => format!("; is it '{meant}'?"),
            None => String::new(),
        };
        self.wrong(format!("no region '{name}' before this line{meant}"));
    }

    fn add_set(&mut self, values: &[(u16, i32)]) {
        let Some(writer) = self.writer.as_mut() else {
            return;
        };
        self.set_lines.push(self.number);
        if let Err(error) = writer.set(values) {
            self.full = true;
            self.wrong(error.to_string());
        }
    }

    fn end(mut self) -> Result<Parsed, Vec<Wrong>> {
        if !self.axes_seen && self.wrong.is_empty() {
            self.number = 1;
            self.wrong("the text is empty; begin with 'axes N'");
        }
        match self.writer {
            Some(writer) if self.wrong.is_empty() => Ok(Parsed {
                axes: self.axes,
                names: self.names,
                region_lines: self.region_lines,
                set_lines: self.set_lines,
                job: writer.finish(),
            }),
            _ => Err(self.wrong),
        }
    }
}

/// The words of a line, without its comment.
fn words(line: &str) -> Vec<&str> {
    let said = line.split('#').next().unwrap_or_default();
    said.split_whitespace().collect()
}

/// Two values for one region, or for two of the same coordinates.
fn twice(name: &str, other: &str) -> String {
    if name == other {
        return format!("the set names '{name}' twice; keep one value");
    }
    format!("'{name}' has the coordinates of '{other}', which the set names too; keep one value")
}

/// The text of a job.
pub fn text(job: &Job) -> String {
    let mut text = format!("axes {}\n", job.axes);
    // Writing to a string cannot fail.
    for (name, region) in job.names.iter().zip(&job.regions) {
        let _ = write!(text, "region {name}");
        for &(start, peak, end) in region {
            for raw in [start, peak, end] {
                let _ = write!(text, " {}", f2dot14::text(raw));
            }
        }
        text.push('\n');
    }
    for set in &job.sets {
        let _ = writeln!(text, "set{}", values(&job.names, set));
    }
    text
}

/// The values of a set as ` r0=1 r2=-3`.
pub fn values(names: &[String], set: &[(u16, i32)]) -> String {
    let mut text = String::new();
    for &(region, value) in set {
        let _ = write!(text, " {}={value}", names[usize::from(region)]);
    }
    text
}

#[cfg(test)]
mod tests {
    use super::*;

    fn parsed(text: &str) -> Parsed {
        parse(text.as_bytes()).unwrap()
    }

    /// What is wrong, a line each.
    fn wrong(text: impl AsRef<[u8]>) -> Vec<String> {
        let wrong = parse(text.as_ref()).expect_err("it is wrong");
        wrong.iter().map(Wrong::to_string).collect()
    }

    #[test]
    fn layout_and_comments_do_not_count() {
        let plain = parsed("axes 1\nregion a 0 1 1\nset a=1\nset\n");
        assert_eq!((plain.axes, &plain.names[..]), (1, &["a".to_string()][..]));
        assert_eq!(
            (&plain.region_lines[..], &plain.set_lines[..]),
            (&[2][..], &[3, 4][..])
        );
        let dressed =
            "# job\r\n\n axes  1 # one\nregion b 0.0 +1.0 1 # bold\n\tset   b=+1\nset #none";
        assert_eq!(parsed(dressed).job, plain.job);
        assert_eq!(plain.job.len(), 4 * 12);
    }

    /// Each is looked at by the library.
    #[test]
    fn the_text_of_a_job_is_that_job() {
        for seed in 0..32 {
            let job = jobs::random::job(seed);
            let bytes = job.to_bytes();
            let decoded = Job::decode(job.axes as u32, &bytes).unwrap();
            assert_eq!(parsed(&text(&decoded)).job, bytes, "{seed}");
        }
    }

    #[test]
    fn the_axis_count() {
        let empty = ["line 1: the text is empty; begin with 'axes N'"];
        assert_eq!(wrong(""), empty);
        assert_eq!(wrong("\n # nothing\n"), empty);
        let none = ["line 2: no axis count yet; begin with 'axes N'"];
        assert_eq!(wrong("\nregion a 0 1 1\nset a=1\nset"), none);
        assert_eq!(
            wrong("axes"),
            ["line 1: 'axes' has no number; write 'axes N', 1 to 64"]
        );
        assert_eq!(
            wrong("axes 65\nregion a 0 1"),
            ["line 1: '65' is no axis count; give 1 to 64"]
        );
        assert!(wrong("axes 1 2")[0].contains("more than one number"));
        assert_eq!(
            wrong("axes 1\naxes 1"),
            ["line 2: the axis count is said twice"]
        );
    }

    #[test]
    fn all_that_is_wrong_and_nothing_twice() {
        let text = "axes 1\nregion a 0 1\nregion b x 1 y\nregion b 0 1 1\nregion c=d 0 1 1\n\
                    region\nset a=1 b=2 e=3\nset a\nset a=2147483648\nsets\n";
        assert_eq!(
            wrong(text),
            [
                "line 2: 'a' has 2 of 3 coordinates; give start, peak and end for the 1 axis",
                "line 3: 'x' is no coordinate from -2 to 1.99994",
                "line 3: 'y' is no coordinate from -2 to 1.99994",
                "line 4: the region 'b' is there already, at line 3",
                "line 5: 'c=d' is no name; leave out '='",
                "line 6: 'region' has no name; write 'region NAME START PEAK END ..', a triple an \
                 axis",
                "line 7: no region 'e' before this line",
                "line 8: 'a' is no NAME=VALUE",
                "line 9: 'a=2147483648': the value is no whole number of 32 bits",
                "line 10: 'sets' begins no line; write 'axes N', 'region NAME START PEAK END ..' \
                 or 'set NAME=VALUE ..'",
            ]
        );
    }

    #[test]
    fn what_was_meant() {
        let text = "axes 1\nregion light 0 1 1\nset lihgt=1\nset \u{1B}=1\n";
        assert_eq!(
            wrong(text),
            [
                "line 3: no region 'lihgt' before this line; is it 'light'?",
                "line 4: no region '\\u{1b}' before this line",
            ]
        );
    }

    #[test]
    fn one_value_for_each_region() {
        let text = "axes 1\nregion a 0 1 1\nregion b 0 1 1\nset a=0 b=1\nset a=1 a=1\n";
        assert_eq!(
            wrong(text),
            [
                "line 4: 'b' has the coordinates of 'a', which the set names too; keep one value",
                "line 5: the set names 'a' twice; keep one value",
            ]
        );
    }

    #[test]
    fn bytes_that_are_no_plain_text() {
        let mark = "line 1, column 1: a byte order mark (BOM) begins the text; save it without one";
        assert_eq!(wrong("\u{FEFF}axes 1\n"), [mark]);
        let latin = b"axes 1\nregion bold 0 1 1 # \xE9t\xE9\nset bold=1 light=2\n";
        assert_eq!(
            wrong(latin),
            [
                "line 2, column 21: byte 0xE9 is no UTF-8; save the text as UTF-8",
                "line 3: no region 'light' before this line",
            ]
        );
        // Letters are counted, and not bytes.
        let counted = wrong(
            "é\u{E9}"
                .as_bytes()
                .iter()
                .copied()
                .chain([0xFF])
                .collect::<Vec<u8>>(),
        );
        assert!(
            counted[0].starts_with("line 1, column 3: byte 0xFF"),
            "{counted:?}"
        );
        assert_eq!(
            wrong(b"\xFF\xFEa\0")[0],
            "line 1, column 1: the text is UTF-16; save it as UTF-8"
        );
    }

    #[test]
    fn a_job_that_is_full_is_said_once() {
        let region = |number: i32| {
            let peak = f64::from(number) / 16_384.0;
            format!("region r{number} 0 {peak} 1\n")
        };
        let regions: String = (0..32_767).map(region).collect();
        let more = "region more -1 -1 0\nregion most -1 -1 -1\n";
        let wrong = wrong(format!("axes 1\n{regions}{more}set r0=1 most=3\n"));
        assert_eq!(
            wrong,
            ["line 32769: more than 32767 regions; a job has no room"]
        );
    }
}
