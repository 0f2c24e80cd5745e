//! Damaged inputs: each gets an answer, a refusal zeroes the buffer, and the octets behind a text are unchanged.
use putrenski::{list, stops, to_ical, to_jcal, Refusal};

const CASES: usize = 100_000;
const BLANK: u8 = 0xAA;

/// A generator of numbers, the same in every run.
struct Numbers(u64);

impl Numbers {
    fn below(&mut self, n: usize) -> usize {
        self.0 ^= self.0 << 13;
        self.0 ^= self.0 >> 7;
        self.0 ^= self.0 << 17;
        (self.0 % n.max(1) as u64) as usize
    }
}

/// The inputs in a folder of a case program that end so.
fn inputs(folder: &str, ending: &str) -> Vec<Vec<u8>> {
    let folder = format!("{}/../../crates/{folder}", env!("CARGO_MANIFEST_DIR"));
    let mut paths: Vec<_> = std::fs::read_dir(folder).unwrap().map(|e| e.unwrap().path()).collect();
    paths.sort();
    let texts: Vec<_> = paths.iter().filter(|p| p.to_str().unwrap().ends_with(ending)).map(|p| std::fs::read(p).unwrap()).collect();
    assert!(!texts.is_empty());
    texts
}

/// A text with some octets changed, taken away, doubled or put in.
fn damaged(text: &[u8], numbers: &mut Numbers) -> Vec<u8> {
    const PIECES: [&[u8]; 13] = [b"\r\n ", b"\n", b"\"", b"\\", b"[", b"]", b"{", b"\\ud800", b"\xed\xa0\x80", b"\x00", b";VALUE=", b";ENCODING=BASE64", b"null"];
    let mut t = text.to_vec();
    for _ in 0..=numbers.below(4) {
        let i = numbers.below(t.len() + 1);
        match numbers.below(4) {
            0 if i < t.len() => t[i] = numbers.below(256) as u8,
            1 => drop(t.drain(i..(i + numbers.below(9)).min(t.len()))),
            2 => {
                let piece = t[i..(i + numbers.below(30)).min(t.len())].to_vec();
                t.splice(i..i, piece);
            }
            _ => drop(t.splice(i..i, PIECES[numbers.below(PIECES.len())].iter().copied())),
        }
    }
    t
}

fn settles(answer: Result<usize, Refusal>, out: &[u8]) {
    match answer {
        Ok(n) => assert!(out[n..].iter().all(|&b| b == BLANK)),
        Err(Refusal(number)) => {
            assert!((1..=12).contains(&number));
            assert!(out.iter().all(|&b| b == 0));
        }
    }
}

/// What `list` answers for the lines of a text, beside the page that `stops` prints for them.
fn lists(text: &[u8], page: &[u8]) {
    let lines: Vec<_> = text.split(|&b| b == b'\n').map(|l| l.strip_suffix(b"\r").unwrap_or(l)).collect();
    let [start, rule, most, ..] = lines[..] else { return };
    let most = std::str::from_utf8(most).ok().and_then(|m| m.parse().ok()).unwrap_or(10).min(300);
    let answer = list(start, rule, most);
    let shown = match &answer {
        Ok(stops) => {
            assert!(stops.len() <= most);
            stops.iter().enumerate().fold(format!("stops {}\n", stops.len()), |page, (i, stop)| page + &format!("{} {stop}\n", i + 1))
        }
        Err(refusal) => format!("{refusal}\n"),
    };
    assert!(page == b"bad input\n" || page == shown.as_bytes(), "{answer:?}");
}

#[test]
fn every_text_gets_an_answer() {
    let mut numbers = Numbers(88_172_645_463_325_252);
    let lines = inputs("conversion_cases/data/tojcal", ".ics");
    let jcals = inputs("conversion_cases/data/tocal", ".json");
    let pages = inputs("layer_cases/data/stops", ".txt");
    let mut out = vec![BLANK; 65_536];
    let (mut written, mut refused) = (0, 0);
    for k in 0..CASES {
        let room = if numbers.below(8) == 0 { numbers.below(400) } else { out.len() };
        out[..room].fill(BLANK);
        let answer = match k % 3 {
            0 => to_jcal(&damaged(&lines[numbers.below(lines.len())], &mut numbers), b"", &mut out[..room]),
            1 => to_ical(&damaged(&jcals[numbers.below(jcals.len())], &mut numbers), b"", &mut out[..room]),
            _ => {
                let text = damaged(&pages[numbers.below(pages.len())], &mut numbers);
                let page = stops(&text);
                lists(&text, &page);
                assert!(page.ends_with(b"\n"));
                assert!([&b"stops "[..], b"refused 1", b"bad input\n"].iter().any(|w| page.starts_with(w)));
                continue;
            }
        };
        settles(answer, &out[..room]);
        if answer.is_ok() {
            written += 1;
        } else {
            refused += 1;
        }
    }
    assert!(written > 1000 && refused > 1000, "{written} written, {refused} refused");
}
