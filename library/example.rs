//! example CASE: a search in Rust that is looked into after every round. Writes what the start shows, a line a round, until its figure has come or the search has
//! ended; or `refused`, a tab and the number. It takes yards of any size that a case may have. Exit status 0, or 2 where nothing could be read.
mod nedluvo;

use nedluvo::{look_up, open_search, search_round, Marks, Shown, SPACE};
use std::{env, fs, process};

/// The start of each train, by the T lines of a case text that has been accepted.
fn starts(case: &[u8]) -> [u8; 4] {
    let mut sections = [0; 4];
    let text = String::from_utf8_lossy(case);
    for (t, line) in text.lines().filter(|line| line.starts_with("T\t")).enumerate() {
        sections[t] = line.split('\t').nth(3).and_then(|field| field.parse().ok()).unwrap_or(0);
    }
    sections
}

/// A search in tables that are long enough, and what the start shows after each round.
fn run(case: &[u8]) -> Result<(), u8> {
    let mut marks: Box<Marks> = vec![0; 61440].into_boxed_slice().try_into().unwrap();
    let mut entries = 8192;
    // Tables that are too short are refused and left alone: then longer ones are tried. The fourth pair is long enough for every case.
    let (mut search, mut figures, mut settings) = loop {
        let (mut figures, mut settings) = (vec![0; entries], vec![0; entries]);
        match open_search(case, &mut figures, &mut settings, &mut marks) {
            Ok(search) => break (search, figures, settings),
            Err(SPACE) => entries *= 9,
            Err(number) => return Err(number),
        }
    };
    let start = starts(case);
    // Once the search has ended nothing shows "not yet" any more.
    loop {
        let rounds = search.rounds();
        match look_up(case, &search, &figures, &settings, &start)? {
            Shown::NotYet => println!("round {rounds}: not yet"),
            Shown::Figure(figure) => return Ok(println!("round {rounds}: home within {figure}")),
            Shown::Without => return Ok(println!("round {rounds}: none")),
        }
        search_round(case, &mut search, &mut figures, &mut settings, &mut marks)?;
    }
}

fn main() {
    let Some(case) = env::args().nth(1).and_then(|path| fs::read(path).ok()) else {
        eprintln!("usage: example CASE, a file that can be read");
        process::exit(2);
    };
    if let Err(number) = run(&case) {
        println!("refused\t{number}");
    }
}
