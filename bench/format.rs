// What `protocol number` does, in plain Rust: reads a log, formats it, prints the pages. For comparing speed and output.
use std::io::{Read, Write};

const WIDTH: usize = 72;
const ROWS: usize = 40;

fn refused(out: &mut impl Write, words: &[usize]) -> ! {
    let words: Vec<String> = words.iter().map(|w| w.to_string()).collect();
    writeln!(out, "refused {}", words.join(" ")).unwrap();
    out.flush().unwrap();
    std::process::exit(1)
}

struct State {
    number: i64,
    stops: i64,
}

fn argument(bytes: &[u8], minus: bool, most: usize) -> Option<i64> {
    let (sign, digits) = match bytes {
        [b'-', rest @ ..] if minus => (-1, rest),
        _ => (1, bytes),
    };
    if digits.is_empty() || digits.len() > most || !digits.iter().all(u8::is_ascii_digit) {
        return None;
    }
    Some(sign * digits.iter().fold(0, |n, d| n * 10 + i64::from(d - b'0')))
}

// One line: its rows, or a cause and a column.
fn step(state: &mut State, line: &[u8]) -> Result<Vec<[u8; WIDTH]>, (usize, usize)> {
    let text = match line {
        [b'.', b'.', ..] => &line[1..],
        [b'.'] => return Err((1, 1)),
        [b'.', letter, rest @ ..] => {
            if *letter != b'n' && *letter != b'm' {
                return Err((1, 1));
            }
            let [b' ', digits @ ..] = rest else {
                return Err((2, 2));
            };
            if *letter == b'n' {
                state.number = argument(digits, true, 5).ok_or((2, 3))?;
            } else {
                state.stops = argument(digits, false, 3).filter(|m| (1..=256).contains(m)).ok_or((2, 3))?;
            }
            return Ok(Vec::new());
        }
        _ => line,
    };
    if state.number >= 100_000 {
        return Err((3, 0));
    }
    let turn = state.number.div_euclid(state.stops);
    let stop = state.number.rem_euclid(state.stops);
    state.number += 1;
    let mut rows = Vec::with_capacity(2);
    let mut row = [b' '; WIDTH];
    row[..12].copy_from_slice(format!("{turn:>7} {stop:>3} ").as_bytes());
    let first = text.len().min(60);
    row[12..12 + first].copy_from_slice(&text[..first]);
    rows.push(row);
    if text.len() > 60 {
        let mut row = [b' '; WIDTH];
        row[12..text.len() - 48].copy_from_slice(&text[60..]);
        rows.push(row);
    }
    Ok(rows)
}

fn main() {
    let mut input = Vec::new();
    match std::env::args().nth(2) {
        Some(file) => input = std::fs::read(file).unwrap(),
        None => {
            std::io::stdin().read_to_end(&mut input).unwrap();
        }
    }
    let mut out = std::io::stdout().lock();
    let mut lines: Vec<Vec<u8>> = Vec::new();
    let mut parts: Vec<&[u8]> = input.split(|b| *b == b'\n').collect();
    if parts.last().is_some_and(|l| l.is_empty()) {
        parts.pop();
    }
    for line in parts {
        if line.len() > 120 {
            refused(&mut out, &[2, line.len()]);
        }
        if let Some(column) = line.iter().position(|b| !(32..=126).contains(b)) {
            refused(&mut out, &[3, column]);
        }
        if lines.len() == 4096 {
            refused(&mut out, &[4, 4096, 4096]);
        }
        lines.push(line.to_vec());
    }
    let mut state = State { number: 0, stops: 22 };
    let (mut item, mut page, mut total) = (0, 0, 0);
    let mut text = Vec::new();
    loop {
        if page == 256 {
            refused(&mut out, &[7, item, 256]);
        }
        let first = item;
        let mut body = [b' '; WIDTH * ROWS];
        let mut rows = 0;
        let mut steps = 0;
        while item < lines.len() {
            let (number, stops) = (state.number, state.stops);
            let more = match step(&mut state, &lines[item]) {
                Ok(more) => more,
                Err((cause, column)) => refused(&mut out, &[6, cause, column, item, page]),
            };
            steps += 1;
            if rows + more.len() > ROWS {
                state = State { number, stops };
                break;
            }
            for row in more {
                body[rows * WIDTH..(rows + 1) * WIDTH].copy_from_slice(&row);
                rows += 1;
            }
            item += 1;
        }
        let last = item == lines.len() && steps == item - first;
        let items = item - first + usize::from(last);
        steps += usize::from(last);
        total += steps;
        text.clear();
        writeln!(text, "page {page}: first {first}, items {items}, rows {rows}, steps {steps}").unwrap();
        for row in body.chunks(WIDTH) {
            text.extend_from_slice(row);
            text.push(b'\n');
        }
        out.write_all(&text).unwrap();
        page += 1;
        if last {
            break;
        }
    }
    writeln!(out, "pages {page}, steps {total}").unwrap();
}
