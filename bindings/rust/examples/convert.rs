//! Turns iCalendar on standard input into jCal.
use std::io::{Read, Write};

fn main() -> Result<(), Box<dyn std::error::Error>> {
    let mut text = Vec::new();
    std::io::stdin().read_to_end(&mut text)?;
    let mut out = vec![0u8; 65_536];
    let n = putrenski::to_jcal(&text, b"", &mut out)?;
    std::io::stdout().write_all(&out[..n])?;
    Ok(())
}
