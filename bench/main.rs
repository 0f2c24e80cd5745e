//! Measures the library beside another implementation of the same rules: same inputs, one run, calls in turn, medians.
use reference::{Level, Settings};
use std::hint::black_box;
use std::time::Instant;

#[link(name = "ffi", kind = "static")]
extern "C" {
    fn putrenski_to_jcal(text: *const u8, n: usize, rows: *const u8, m: usize, out: *mut u8, room: usize) -> usize;
    fn putrenski_to_ical(text: *const u8, n: usize, rows: *const u8, m: usize, out: *mut u8, room: usize) -> usize;
    fn putrenski_stops(text: *const u8, n: usize, out: *mut u8, room: usize) -> usize;
    fn putrenski_list(start: *const u8, n: usize, rule: *const u8, m: usize, most: usize, out: *mut u8, room: usize) -> usize;
}

const ROOM: usize = 65_536;
const TURNS: usize = 60;

/// The level of the other implementation at which it answers as the library does.
const LEVEL: u8 = 3;

fn level() -> Level {
    Level::new(LEVEL).expect("the other implementation has the level")
}

/// The other's conversion to jCal, without added rows.
fn other_to_jcal(text: &[u8], room: usize) -> Result<Vec<u8>, u8> {
    reference::tojcal(text, &Settings::of_program(b"", level()), level().default_form(), room)
}

/// The other's conversion to iCalendar, without added rows.
fn other_to_ical(text: &[u8], room: usize) -> Result<Vec<u8>, u8> {
    reference::tocal(text, &Settings::of_program(b"", level()), room)
}

/// An ordinary calendar: events with the usual properties.
fn ordinary(size: usize) -> Vec<u8> {
    let mut s = String::from("BEGIN:VCALENDAR\r\nVERSION:2.0\r\nPRODID:-//Market//Office//EN\r\n");
    let mut k = 0;
    while s.len() + 330 < size {
        k += 1;
        s += &format!(
            "BEGIN:VEVENT\r\nUID:stop-{k}@market.example\r\nDTSTAMP:20240115T120000Z\r\nDTSTART;TZID=Europe/Berlin:202402{:02}T0600\
             00\r\nDURATION:PT1H30M\r\nSUMMARY:Loading at ramp {k}\\, gate B\r\nLOCATION;LANGUAGE=en:Ramp {k}; the long\r\n  side\r\nRRULE:FREQ=\
             DAILY;INTERVAL=2;COUNT=10\r\nSEQUENCE:{k}\r\nEND:VEVENT\r\n",
            k % 28 + 1
        )
        .replace("; the long", " the long");
    }
    s += "END:VCALENDAR\r\n";
    s.into_bytes()
}

/// A text of lines, as iCalendar writes it.
fn words(size: usize) -> String {
    "A wagon goes from ramp to ramp all day\\n".repeat(size / 40)
}

/// A calendar of one line.
fn of_line(line: &str) -> Vec<u8> {
    format!("BEGIN:VCALENDAR\r\n{line}\r\nEND:VCALENDAR\r\n").into_bytes()
}

/// One text of so many octets.
fn one_text(size: usize) -> Vec<u8> {
    of_line(&format!("DESCRIPTION:{}", words(size - 48)))
}

/// RFC 4648 4, of whole groups of three octets.
fn base64(octets: &[u8]) -> String {
    const ALPHABET: &[u8; 64] = b"ABCDEFGHIJKLMNOPQRSTUVWXYZabcdefghijklmnopqrstuvwxyz0123456789+/";
    let group = |g: &[u8]| (g[0] as usize) << 16 | (g[1] as usize) << 8 | g[2] as usize;
    octets.chunks_exact(3).flat_map(|g| [18, 12, 6, 0].map(|k| ALPHABET[group(g) >> k & 63] as char)).collect()
}

/// One text that is sent encoded, in so many octets.
fn encoded_text(size: usize) -> Vec<u8> {
    of_line(&format!("DESCRIPTION;ENCODING=BASE64:{}", base64(words((size - 64) / 160 * 120).as_bytes())))
}

/// Many properties of a few octets.
fn tiny(size: usize) -> Vec<u8> {
    let mut s = String::from("BEGIN:VCALENDAR\r\n");
    while s.len() + 30 < size {
        s += "X:1\r\n";
    }
    s += "END:VCALENDAR\r\n";
    s.into_bytes()
}

/// Components eight deep, again and again.
fn deep(size: usize) -> Vec<u8> {
    let mut s = String::from("BEGIN:VCALENDAR\r\n");
    while s.len() + 250 < size {
        for _ in 0..7 {
            s += "BEGIN:A\r\n";
        }
        s += "SUMMARY:x\r\n";
        for _ in 0..7 {
            s += "END:A\r\n";
        }
    }
    s += "END:VCALENDAR\r\n";
    s.into_bytes()
}

/// The ordinary calendar with a fold in every line.
fn folded(size: usize) -> Vec<u8> {
    let text = String::from_utf8(ordinary(size * 8 / 9)).unwrap();
    let mut s = String::new();
    for line in text.split("\r\n").filter(|l| !l.is_empty()) {
        let at = line.len() / 2;
        s += &format!("{}\r\n {}\r\n", &line[..at], &line[at..]);
    }
    s.into_bytes()
}

/// The medians of two jobs that are timed in turn, in nanoseconds.
fn medians(mut a: impl FnMut(), mut b: impl FnMut()) -> (f64, f64) {
    let (mut x, mut y) = (Vec::new(), Vec::new());
    for _ in 0..TURNS {
        for (job, times) in [(&mut a as &mut dyn FnMut(), &mut x), (&mut b as &mut dyn FnMut(), &mut y)] {
            let t = Instant::now();
            for _ in 0..4 {
                job();
            }
            times.push(t.elapsed().as_nanos() as f64 / 4.0);
        }
    }
    x.sort_by(f64::total_cmp);
    y.sort_by(f64::total_cmp);
    (x[TURNS / 2], y[TURNS / 2])
}

fn row(name: &str, octets: usize, (ours, theirs): (f64, f64)) {
    let speed = |ns: f64| octets as f64 * 1000.0 / ns;
    println!("| {name} | {octets} | {:.0} | {:.0} | {:.2} |", speed(ours), speed(theirs), theirs / ours);
}

type Ours = unsafe extern "C" fn(*const u8, usize, *const u8, usize, *mut u8, usize) -> usize;
type Theirs = fn(&[u8], usize) -> Result<Vec<u8>, u8>;

/// Converts a text by both, sees that they agree, and prints their speed.
fn convert(name: &str, ours: Ours, theirs: Theirs, text: &[u8]) {
    let mut out = vec![0u8; 8 * ROOM];
    let n = unsafe { ours(text.as_ptr(), text.len(), text.as_ptr(), 0, out.as_mut_ptr(), out.len()) };
    let written = theirs(text, out.len()).expect("the input is accepted");
    assert!(n == written.len() && out[..n] == written[..], "{name}: the answers differ");
    let times = medians(
        || {
            black_box(unsafe { ours(text.as_ptr(), text.len(), text.as_ptr(), 0, out.as_mut_ptr(), out.len()) });
        },
        || {
            black_box(theirs(black_box(text), 8 * ROOM).ok());
        },
    );
    row(name, text.len(), times);
}

/// The text with each line folded at 75 octets.
fn folded_at_75(text: &[u8]) -> Vec<u8> {
    let lines = text.split(|c| *c == b'\n').map(|l| l.chunks(74).collect::<Vec<_>>().join(&b"\r\n "[..]));
    lines.collect::<Vec<_>>().join(&b'\n')
}

/// Converts a description sent plain and the same sent encoded in 48 KiB, in turn, and prints both times.
fn beside_plain(name: &str, form: fn(&[u8]) -> Vec<u8>) {
    let words = words(36_864);
    let texts = [form(&of_line(&format!("DESCRIPTION:{words}"))), form(&of_line(&format!("DESCRIPTION;ENCODING=BASE64:{}", base64(words.as_bytes()))))];
    let to_jcal = |text: &[u8], out: &mut [u8]| unsafe { putrenski_to_jcal(text.as_ptr(), text.len(), text.as_ptr(), 0, out.as_mut_ptr(), out.len()) };
    let mut outs = [vec![0u8; ROOM], vec![0u8; ROOM]];
    let lengths = [0, 1].map(|k| to_jcal(&texts[k], &mut outs[k]));
    assert!(lengths[0] < ROOM && lengths[0] == lengths[1] && outs[0] == outs[1], "{name}: the answers differ");
    let [a, b] = &mut outs;
    let (plain, encoded) = medians(
        || {
            black_box(to_jcal(&texts[0], a));
        },
        || {
            black_box(to_jcal(&texts[1], b));
        },
    );
    let sent = [(plain, texts[0].len()), (encoded, texts[1].len())].map(|(ns, octets)| (octets, ns / 1000.0, octets as f64 * 1000.0 / ns));
    let columns = sent.map(|(octets, us, speed)| format!("{octets} | {us:.1} | {speed:.0}")).join(" | ");
    println!("| {name} | {columns} | {:.2} | {:.2} |", sent[1].2 / sent[0].2, plain / encoded);
}

/// The times of so many stops, and of one of them.
fn stop_row(name: &str, count: usize, (ours, theirs): (f64, f64)) {
    let each = |ns: f64| ns / count as f64;
    println!("| {name} | {:.2} | {:.2} | {:.0} | {:.0} | {:.2} |", ours / 1000.0, theirs / 1000.0, each(ours), each(theirs), theirs / ours);
}

const START: &[u8] = b"20240228T180000";
/// A rule of each kind, and how many of its stops make a long list.
const RULES: [(&str, &[u8], usize); 4] = [
    ("hourly", b"FREQ=HOURLY;INTERVAL=12", 10_000),
    ("weekly", b"FREQ=WEEKLY;BYDAY=TU,FR", 10_000),
    ("monthly by weekday", b"FREQ=MONTHLY;BYDAY=-1MO", 1_000),
    ("monthly by day", b"FREQ=MONTHLY;BYMONTHDAY=31", 1_000),
];
/// Rules that no day meets up to the year 9999, the second because the start lies in a February.
const EMPTY: [(&str, &[u8]); 2] = [("no 53rd Monday", b"FREQ=MONTHLY;BYDAY=53MO"), ("no 30 February", b"FREQ=MONTHLY;INTERVAL=12;BYMONTHDAY=30")];
/// The most stops that a page has.
const PAGE: usize = 64;

/// The library's list of so many stops, as text.
fn list(rule: &[u8], count: usize, out: &mut [u8]) -> usize {
    unsafe { putrenski_list(START.as_ptr(), START.len(), rule.as_ptr(), rule.len(), count, out.as_mut_ptr(), out.len()) }
}

/// Prints a page of stops by the library's page, then by its list, and by the other's program; sees that they agree, and prints their times.
fn pages(kind: &str, rule: &[u8]) {
    let text = [START, rule, format!("{PAGE}\n").as_bytes()].join(&b'\n');
    let theirs = || reference::stops_program(black_box(&text), level());
    let page = |out: &mut [u8]| unsafe { putrenski_stops(text.as_ptr(), text.len(), out.as_mut_ptr(), out.len()) };
    let names = [format!("{kind}: a page of 64"), format!("{kind}: a list of 64")];
    let jobs: [(&str, &dyn Fn(&mut [u8]) -> usize); 2] = [(&names[0], &page), (&names[1], &|out| list(rule, PAGE, out))];
    for (name, ours) in jobs {
        let mut out = vec![0u8; 4096];
        let n = ours(&mut out);
        assert!(out[..n] == theirs()[..], "{name}: the answers differ");
        let times = medians(
            || {
                black_box(ours(&mut out));
            },
            || {
                black_box(theirs());
            },
        );
        stop_row(name, PAGE, times);
    }
}

/// Prints the times of a list of so many stops, of which there are `most`; the other lists no more than a page.
fn long_list(name: &str, rule: &[u8], count: usize, most: usize) {
    let mut out = vec![0u8; 64 * (most + 1)];
    let n = list(rule, most, &mut out);
    assert!(out[..n].starts_with(format!("stops {count}\n").as_bytes()), "{name}: another number of stops");
    let (ours, _) = medians(
        || {
            black_box(list(rule, most, &mut out));
        },
        || (),
    );
    let each = if count == 0 { String::new() } else { format!("{:.0}", ours / count as f64) };
    println!("| {name} | {:.2} | | {each} | | |", ours / 1000.0);
}

/// The jCal of the longest calendar of a kind whose jCal has at most so many octets.
fn jcal(make: fn(usize) -> Vec<u8>, most: usize) -> Vec<u8> {
    (1..)
        .map(|k| other_to_jcal(&make(most - k * most / 64), 8 * ROOM).expect("the input is accepted"))
        .find(|jcal| jcal.len() <= most)
        .unwrap()
}

const SIZES: [usize; 3] = [4096, 16384, 61440];

fn main() {
    let inputs = [
        ("ordinary calendar", ordinary as fn(usize) -> Vec<u8>),
        ("one long text", one_text),
        ("one long text, encoded", encoded_text),
        ("tiny properties", tiny),
        ("eight levels", deep),
        ("a fold in every line", folded),
    ];
    println!("| to jCal | octets | MB/s | other MB/s | ratio |\n|---|---|---|---|---|");
    for (name, make) in inputs {
        for size in SIZES {
            convert(name, putrenski_to_jcal, other_to_jcal, &make(size));
        }
    }
    println!("\n| a description to jCal | octets plain | µs | MB/s | octets encoded | µs | MB/s | ratio of MB/s | of times |\n|---|---|---|---|---|---|---|---|---|");
    beside_plain("in one line", |text| text.to_vec());
    beside_plain("folded", folded_at_75);
    println!("\n| to iCalendar | octets | MB/s | other MB/s | ratio |\n|---|---|---|---|---|");
    for (name, make) in inputs {
        for size in SIZES {
            convert(name, putrenski_to_ical, other_to_ical, &jcal(make, size));
        }
    }
    println!("\n| stops | µs | other µs | ns a stop | other ns | ratio |\n|---|---|---|---|---|---|");
    for (kind, rule, _) in RULES {
        pages(kind, rule);
    }
    for (kind, rule, count) in RULES {
        long_list(&format!("{kind}: a list of {count}"), rule, count, count);
    }
    for (name, rule) in EMPTY {
        long_list(name, rule, 0, PAGE);
    }
}
