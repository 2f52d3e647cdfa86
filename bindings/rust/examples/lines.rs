//! The report on lines with their hints: lines TABLE [ROUNDS [RULES]] <LINES. A line is a region, `-` for none, a tab, and the
//! text. RULES is `library`, or `crate`, as without it. ROUNDS times over the lines are timed after the report is written: ns a
//! line on standard error.
use phonenumber_proved::{Database, Region, Rules, WORLD_PATH};
use std::io::{Read, Write};
use std::time::Instant;

fn main() -> Result<(), Box<dyn std::error::Error>> {
    let words: Vec<String> = std::env::args().collect();
    let world = Database::load(words.get(1).map_or(WORLD_PATH, String::as_str))?;
    let rounds: u32 = words.get(2).map_or(Ok(0), |word| word.parse())?;
    let world = world.by(match words.get(3).map(String::as_str) {
        Some("library") => Rules::Library,
        Some("crate") | None => Rules::Crate,
        Some(_) => return Err("the rules are library or crate".into()),
    });
    let mut text = Vec::new();
    std::io::stdin().read_to_end(&mut text)?;
    let mut lines = Vec::new();
    for line in text.split(|&b| b == b'\n').filter(|line| !line.is_empty()) {
        let tab = line.iter().position(|&b| b == b'\t').ok_or("a line without a tab")?;
        let hint = match std::str::from_utf8(&line[..tab])? {
            "-" => None,
            id => Some(id.parse::<Region>()?),
        };
        lines.push((hint, &line[tab + 1..]));
    }
    let mut out = std::io::BufWriter::new(std::io::stdout().lock());
    for (hint, line) in &lines {
        writeln!(out, "{}", world.report(*hint, line)?)?;
    }
    let start = Instant::now();
    for _ in 0..rounds {
        for (hint, line) in &lines {
            std::hint::black_box(world.report(*hint, line)?);
        }
    }
    if rounds > 0 {
        eprintln!("Rust: {} ns a line", start.elapsed().as_nanos() / u128::from(rounds) / lines.len() as u128);
    }
    Ok(())
}
