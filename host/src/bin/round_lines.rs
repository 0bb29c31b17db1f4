//! A round of grids of every kind, and what the program `round` must print of a round, by plain.rs alone.
//!
//!     round_lines cases SEED COUNT > ROUND
//!     round_lines answers < ROUND
//!
//! A case is part of a filling, or a text of any kind as ../grids.rs makes them, alone or with an answer: the filling, now and then with another digit or
//! byte, cut, or a byte longer.

use std::io::{self, Read, Write};

use sudoku_host::random::Random;
use sudoku_host::{grids, plain, Clues};

fn main() -> io::Result<()> {
    let words: Vec<String> = std::env::args().skip(1).collect();
    let words: Vec<&str> = words.iter().map(String::as_str).collect();
    match words[..] {
        ["cases", seed, count] => cases(number(seed), number(count)),
        ["answers"] => answers(),
        _ => usage(),
    }
}

fn usage() -> ! {
    eprintln!("round_lines cases SEED COUNT | round_lines answers");
    std::process::exit(2);
}

fn number(word: &str) -> u64 {
    word.parse().unwrap_or_else(|_| usage())
}

fn cases(seed: u64, count: u64) -> io::Result<()> {
    let mut out = io::stdout().lock();
    (0..count).try_for_each(|at| {
        let mut line = case(&mut Random::of_case(seed, at));
        line.push(b'\n');
        out.write_all(&line)
    })
}

fn case(random: &mut Random) -> Vec<u8> {
    let filling = grids::filling(random);
    let mut line = if random.percent(50) { text(&grids::blanked(random, &filling, 17, 81)) } else { grids::text(random) };
    line.retain(|&byte| byte != b'\n');
    if random.percent(20) {
        return line;
    }
    let mut answer = text(&filling);
    match random.below(12) {
        0 => answer.truncate(random.below(81)),
        1 => answer.push(b'1'),
        2 => answer[random.below(81)] = *random.pick(b"0.a,\0"),
        3 | 4 => answer[random.below(81)] = b'0' + random.digit() as u8,
        5 => answer.push(b'\r'),
        _ => {}
    }
    line.push(*random.pick(b" \t,;"));
    line.extend(answer);
    line
}

fn text(clues: &Clues) -> Vec<u8> {
    clues.iter().map(|&clue| if clue == 0 { b'.' } else { b'0' + clue as u8 }).collect()
}

fn answers() -> io::Result<()> {
    let mut round = Vec::new();
    io::stdin().read_to_end(&mut round)?;
    let mut out = io::stdout().lock();
    let whole = round.strip_suffix(b"\n").unwrap_or(&round);
    if round.is_empty() {
        return Ok(());
    }
    whole.split(|&byte| byte == b'\n').try_for_each(|line| out.write_all(&plain::round_line(line)))
}
