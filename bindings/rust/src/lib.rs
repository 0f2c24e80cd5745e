//! Safe wrappers of the proved calendar library: iCalendar to jCal and back, and the stops of a recurrence rule.
//! Build the library first: `rt lib` in the repository's crates/ffi.

#[link(name = "ffi", kind = "static")]
extern "C" {
    fn putrenski_to_jcal(text: *const u8, n: usize, rows: *const u8, m: usize, out: *mut u8, room: usize) -> usize;
    fn putrenski_to_ical(text: *const u8, n: usize, rows: *const u8, m: usize, out: *mut u8, room: usize) -> usize;
    fn putrenski_stops(text: *const u8, n: usize, out: *mut u8, room: usize) -> usize;
    fn putrenski_list(start: *const u8, n: usize, rule: *const u8, m: usize, most: usize, out: *mut u8, room: usize) -> usize;
}

/// The number of a refusal, from 1 to 15.
#[derive(Clone, Copy, Debug, PartialEq, Eq)]
pub struct Refusal(pub u8);

impl std::fmt::Display for Refusal {
    fn fmt(&self, f: &mut std::fmt::Formatter) -> std::fmt::Result {
        write!(f, "refused {}", self.0)
    }
}

impl std::error::Error for Refusal {}

/// The greatest number of a refusal.
const MOST_REFUSAL: usize = 15;

fn answer(word: usize) -> Result<usize, Refusal> {
    let below = usize::MAX - word;
    if below <= MOST_REFUSAL {
        Err(Refusal(below as u8))
    } else {
        Ok(word)
    }
}

/// Turns iCalendar into jCal. The text lies at the front of `out`, with the octets behind it unchanged; a refusal zeroes `out`.
/// `rows` is the content of a rows.hex, empty where there is none.
pub fn to_jcal(text: &[u8], rows: &[u8], out: &mut [u8]) -> Result<usize, Refusal> {
    answer(unsafe { putrenski_to_jcal(text.as_ptr(), text.len(), rows.as_ptr(), rows.len(), out.as_mut_ptr(), out.len()) })
}

/// Turns jCal into iCalendar, as `to_jcal` does the other way.
pub fn to_ical(text: &[u8], rows: &[u8], out: &mut [u8]) -> Result<usize, Refusal> {
    answer(unsafe { putrenski_to_ical(text.as_ptr(), text.len(), rows.as_ptr(), rows.len(), out.as_mut_ptr(), out.len()) })
}

/// The longest page that `stops` prints.
const MOST_PAGE: usize = 2715;

/// What `stops` prints for a start, a rule and the most stops, a line each.
pub fn stops(text: &[u8]) -> Vec<u8> {
    let mut page = vec![0u8; MOST_PAGE];
    let n = unsafe { putrenski_stops(text.as_ptr(), text.len(), page.as_mut_ptr(), page.len()) };
    page.truncate(n);
    page
}

/// The longest line of a stop: a number of 20 digits, a space, a moment of 20 octets and a line end; the line in front is shorter.
const MOST_LINE: usize = 42;

/// The page of a list, in a buffer that grows until it fits.
fn page(start: &[u8], rule: &[u8], most: usize) -> Vec<u8> {
    let whole = most.saturating_add(1).saturating_mul(MOST_LINE);
    let mut out = vec![0u8; whole.min(4096)];
    loop {
        let n = unsafe { putrenski_list(start.as_ptr(), start.len(), rule.as_ptr(), rule.len(), most, out.as_mut_ptr(), out.len()) };
        if n <= out.len() {
            out.truncate(n);
            return out;
        }
        out.resize(out.len().saturating_mul(8).min(whole), 0);
    }
}

/// The stops of a start and a rule, at most `most`, as `2024-02-28T18:00:00`.
pub fn list(start: &[u8], rule: &[u8], most: usize) -> Result<Vec<String>, Refusal> {
    let page = String::from_utf8(page(start, rule, most)).expect("a page is ASCII");
    let mut words = page.lines().map(|line| line.split_once(' ').expect("a line has two words"));
    let (answer, number) = words.next().expect("a page has a line");
    if answer == "refused" {
        return Err(Refusal(number.parse().expect("a refusal has a number")));
    }
    Ok(words.map(|(_, moment)| moment.to_string()).collect())
}
