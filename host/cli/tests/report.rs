//! `fenikezo report`, in a browser: what the page shows is what `--json` says.

mod common;

use common::{done, ended, folder, TWO_SETS};
use ivs::JobWriter;
use std::fs;
use std::path::Path;
use std::process::Command;
use std::time::{Duration, Instant};

/// Debian's chromium without a window, for three minutes at most.
fn chromium(folder: &Path) -> Command {
    let browser = interop::find("chromium", "/bin/chromium").unwrap();
    let mut command = Command::new("timeout");
    command
        .arg("180")
        .arg(browser)
        .args([
            "--headless",
            "--no-sandbox",
            "--disable-gpu",
            "--disable-dev-shm-usage",
        ])
        .arg(format!(
            "--user-data-dir={}",
            folder.join("profile").display()
        ))
        .current_dir(folder);
    command
}

/// The page as the browser has it when its script is done.
fn opened(folder: &Path, page: &str) -> String {
    let page = format!("file://{}/{page}", folder.display());
    let output = chromium(folder)
        .args(["--virtual-time-budget=60000", "--dump-dom", &page])
        .output()
        .unwrap();
    let page = String::from_utf8(output.stdout).unwrap();
    let said = String::from_utf8_lossy(&output.stderr);
    assert!(page.contains("data-drawn=\"yes\""), "{page}\n{said}");
    page
}

/// What stands between two marks, the first time.
fn between<'a>(text: &'a str, before: &str, after: &str) -> &'a str {
    let (_, rest) = text
        .split_once(before)
        .unwrap_or_else(|| panic!("no {before}"));
    rest.split_once(after)
        .unwrap_or_else(|| panic!("no {after}"))
        .0
}

/// The number of a field in an object of the JSON.
fn field<'a>(json: &'a str, object: &str, field: &str) -> &'a str {
    let object = between(json, &format!("\"{object}\": {{"), "}");
    let rest = object.split_once(&format!("\"{field}\": ")).unwrap().1;
    rest.split([',', '}']).next().unwrap()
}

/// The text of an element that says which number it is.
fn shown(page: &str, is: &str) -> String {
    between(page, &format!("data-is=\"{is}\">"), "<").replace(',', "")
}

/// The numbers of both modes are those of the JSON, which the page holds as it is printed.
fn says_the_same(page: &str, json: &str) {
    let held = between(
        page,
        "<script type=\"application/json\" id=\"data\">",
        "</script>",
    );
    assert_eq!(held, json.trim_end());
    let fields = [
        "bytes",
        "subtables",
        "ids",
        "merges",
        "size_before",
        "size_after",
    ];
    for mode in ["dedup", "implicit"] {
        for name in fields {
            let is = format!("{mode}.{name}");
            assert_eq!(shown(page, &is), field(json, mode, name), "{is}");
        }
    }
}

#[test]
fn the_page_says_what_the_json_says() {
    let folder = folder("report_same");
    fs::write(folder.join("text"), TWO_SETS).unwrap();
    let json = done(&folder, "report text -o page.html --json");
    assert_eq!(done(&folder, "report text --json"), json);
    let page = opened(&folder, "page.html");
    says_the_same(&page, &json);
    assert_eq!(shown(&page, "subtable.0"), "14");
    assert!(page.contains("title=\"0 1 1\">bold</th>"), "{page}");
    let merge = "<summary>subtable 0: group 2: 2 sets of bold:1 light:1, joined of groups 0 and \
                 1, which saved 8 bytes</summary>";
    assert!(page.contains(merge), "{page}");
    assert!(page.contains("Sets 1 to 2 of 2."), "{page}");
    // What is looked for can be linked to.
    let page = opened(&folder, "page.html#set=1");
    let story = between(&page, "<div id=\"story\">", "</div>");
    let row = "<p>Set 1 has the id 1 and row 0 of subtable 0: bold=0 light=1.</p>";
    assert!(story.starts_with(row), "{story}");
    let page = opened(&folder, "page.html#region=light");
    assert!(page.contains("Sets 1 to 1 of 1."), "{page}");
    // Nothing is fetched, and no name is read as HTML.
    let page = fs::read_to_string(folder.join("page.html")).unwrap();
    assert!(!page.contains("http:") && !page.contains("https:") && !page.contains("src="));
}

#[test]
fn names_are_no_html() {
    let folder = folder("report_names");
    let name = "</script><i>\"&";
    fs::write(folder.join("text"), TWO_SETS.replace("bold", name)).unwrap();
    let json = done(&folder, "report text -o page.html --json");
    let page = opened(&folder, "page.html");
    says_the_same(&page, &json);
    assert!(
        page.contains(">&lt;/script&gt;&lt;i&gt;\"&amp;</th>"),
        "{page}"
    );
}

#[test]
fn what_is_wrong_is_shown() {
    let folder = folder("report_wrong");
    let job = [[1, 0, 0, 0, 0, 0, 0x40, 0, 0x40, 0, 0x20, 0], [9; 12]].concat();
    fs::write(folder.join("job"), job).unwrap();
    let (json, _) = ended(&folder, "report job --axes 1 -o page.html --json", 2);
    assert!(
        json.contains("\"records\": [[1, 0, 0, 0, 0, 0, 64, 0, 64, 0, 32, 0], "),
        "{json}"
    );
    let page = opened(&folder, "page.html");
    assert!(
        page.contains("31 NOT_ZERO at record 0 (byte 0): byte 10 is 0x20"),
        "{page}"
    );
    assert!(
        page.contains(">01 00 00 00 00 00 40 00 40 00 <b>20</b> 00</div>"),
        "{page}"
    );
    assert!(page.contains("<b>09</b> 09 09 09"), "{page}");
    fs::write(folder.join("text"), "axes 1\nset <b>=1\n").unwrap();
    let (_, said) = ended(&folder, "report text -o page.html", 1);
    assert_eq!(
        said,
        "fenikezo: text: something is wrong, as page.html says\n"
    );
    let page = opened(&folder, "page.html");
    assert!(
        page.contains("line 2: no region '&lt;b&gt;' before this line"),
        "{page}"
    );
    assert!(page.contains("<code>set &lt;b&gt;=1</code>"), "{page}");
}

/// A mode that refuses is told beside the one that does not, which is shown.
#[test]
fn the_mode_that_takes_it() {
    let folder = folder("report_mode");
    fs::write(folder.join("job"), jobs::edges::shapes(1_025).to_bytes()).unwrap();
    let json = done(&folder, "report job --axes 1 --json");
    assert!(json.contains("\"mode\": \"implicit\""), "{}", &json[..400]);
    let (_, said) = ended(&folder, "report job --axes 1 --mode dedup -o page.html", 2);
    assert!(said.contains("10 SHAPES_FULL"), "{said}");
}

/// 1,024 shapes and 60,000 sets.
#[test]
fn a_large_job_opens_soon() {
    let folder = folder("report_large");
    let mut job = JobWriter::new(1);
    let regions: Vec<u16> = (1..=10)
        .map(|peak| job.region(&[(0, peak, 100)]).unwrap())
        .collect();
    for set in 0..60_000 {
        let named = regions.iter().filter(|&&region| set >> region & 1 == 1);
        let values: Vec<(u16, i32)> = named.map(|&region| (region, 1 + set / 1_024)).collect();
        job.set(&values).unwrap();
    }
    fs::write(folder.join("job"), job.finish()).unwrap();
    let json = done(&folder, "report job --axes 1 -o page.html --json");
    assert_eq!(field(&json, "dedup", "shapes"), "1024");
    let began = Instant::now();
    let page = opened(&folder, "page.html#set=59999");
    let took = began.elapsed();
    says_the_same(&page, &json);
    assert!(
        page.contains("<p>Set 59999 has the id "),
        "{}",
        &page[..2_000]
    );
    // A few seconds; more is let pass where a machine has much else to do.
    assert!(took < Duration::from_secs(60), "{took:?}");
    println!("opened in {took:?}");
}

/// The lightness of a colour `#rrggbb`, as WCAG has it.
fn lightness(colour: &str) -> f64 {
    let part = |at: usize| {
        let value = u8::from_str_radix(&colour[at..at + 2], 16).unwrap();
        let value = f64::from(value) / 255.0;
        if value <= 0.040_45 {
            value / 12.92
        } else {
            ((value + 0.055) / 1.055).powf(2.4)
        }
    };
    0.2126 * part(1) + 0.7152 * part(3) + 0.0722 * part(5)
}

/// In light and in dark every ink can be read on every ground (4.5 to 1).
#[test]
fn inks_can_be_read() {
    let page = include_str!("../src/page.html");
    let schemes: Vec<&str> = page.split(":root {").skip(1).take(2).collect();
    assert_eq!(schemes.len(), 2);
    for scheme in schemes {
        let colour = |name: &str| lightness(between(scheme, &format!("--{name}: "), ";"));
        let grounds = ["paper", "field", "w1", "w2", "w4", "mark"].map(colour);
        for (number, ground) in grounds.into_iter().enumerate() {
            // Only what stands in cells has a coloured ground.
            let inks = if number < 2 {
                &["ink", "soft", "link", "bad", "warn"][..]
            } else {
                &["ink"]
            };
            for ink in inks {
                let (a, b) = (colour(ink), ground);
                let contrast = (a.max(b) + 0.05) / (a.min(b) + 0.05);
                assert!(contrast >= 4.5, "{ink} on ground {number}: {contrast}");
            }
        }
    }
}

/// All that can be pressed is a button, a link or a field, which the keyboard reaches; what
/// rolls can be rolled by it; and all fields have a label.
#[test]
fn the_keyboard_reaches_all() {
    let folder = folder("report_keys");
    fs::write(folder.join("text"), TWO_SETS).unwrap();
    done(&folder, "report text -o page.html");
    let page = opened(&folder, "page.html");
    let main = between(&page, "<main", "</main>");
    let fields = main.matches("<input").count() + main.matches("<select").count();
    assert_eq!((fields, main.matches("<label>").count()), (2, 2));
    let rolls = main.matches("class=\"roll\"").count();
    let reached = main
        .matches("class=\"roll\" tabindex=\"0\" role=\"group\" aria-label=")
        .count();
    assert!(rolls > 0 && rolls == reached);
    assert!(!page.contains("outline: none") && page.contains(":focus-visible"));
    assert!(page.contains("<a class=\"skip\" href=\"#main\">"));
}

#[test]
fn it_can_be_printed() {
    let folder = folder("report_print");
    fs::write(folder.join("text"), TWO_SETS).unwrap();
    done(&folder, "report text -o page.html");
    let status = chromium(&folder)
        .arg("--print-to-pdf=page.pdf")
        .arg(format!("file://{}/page.html", folder.display()))
        .output()
        .unwrap();
    assert!(status.status.success(), "{status:?}");
    assert!(fs::read(folder.join("page.pdf"))
        .unwrap()
        .starts_with(b"%PDF"));
}
