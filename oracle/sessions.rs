//! Sessions by a seed, and what they reach.
//!
//!     sessions text LINES SEED TEXT       a session of at least so many lines
//!     sessions replay FIRST SEED TEXT ANSWERS
//!                                         a short one that reaches every situation and holds the
//!                                         session FIRST, and its answers
//!     sessions short TEXT                 every line of one and two characters, every record of two
//!                                         bytes, every kind at every length to 40; before and after
//!                                         an opening
//!
//! With `table` as a last word it prints each situation with its count. It fails if one is not reached.
mod coverage;
mod flights;
mod layout;
mod letters;
mod limits;
mod noise;
mod record_bytes;
mod replay;
mod rng;
mod scenes;
mod session;
mod short_lines;
mod situations;
mod unit;
use session::Session;
use std::fs::{read, write};

/// A random flight.
fn flight(s: &mut Session) {
    let mut flight = flights::Flight::new(&mut s.g);
    s.send(flight.opening());
    for _ in 0..40 + s.g.n(260) {
        let record = flight.next(&mut s.g, s.reference.unit.as_ref().unwrap());
        let answer = s.send(record);
        flight.saw(&record, &answer);
    }
}

fn text(lines: u64, seed: u64) -> Session {
    let mut s = Session::new(seed, 40).in_any_letters(!seed);
    noise::unopened(&mut s);
    letters::each(&mut s);
    limits::each(&mut s);
    scenes::many(&mut s);
    let mut scene = scenes::ALL.iter().cycle();
    while s.lines < lines {
        scene.next().unwrap()(&mut s);
        limits::some(&mut s);
        noise::some(&mut s);
        for _ in 0..3 {
            flight(&mut s);
        }
    }
    s.end_without_lf();
    s
}

/// What was reached, in a line or in a table; false where something was not.
fn reached(s: &Session, many: bool, table: bool) -> bool {
    let counts = s.coverage.table(many);
    let (least, n) = counts.iter().min_by_key(|(_, n)| *n).unwrap();
    println!("sessions: {} lines, {} situations, the rarest {n} times ({} {})", s.lines, counts.len(), least.0, least.1);
    for ((name, number), n) in &counts {
        if table {
            println!("{n:>9}  {name} {number}");
        }
        if *n == 0 {
            println!("sessions: not reached: {name} {number}");
        }
    }
    *n > 0
}

fn main() {
    let words: Vec<String> = std::env::args().skip(1).collect();
    let words: Vec<&str> = words.iter().map(String::as_str).collect();
    let all = match words[..] {
        ["text", lines, seed, to, ref rest @ ..] => {
            let s = text(lines.parse().unwrap(), seed.parse().unwrap());
            write(to, &s.text).unwrap();
            reached(&s, true, rest == ["table"])
        }
        ["replay", first, seed, to, answers, ref rest @ ..] => {
            let s = replay::replay(&read(first).unwrap(), seed.parse().unwrap());
            write(to, &s.text).unwrap();
            write(answers, &s.answers).unwrap();
            reached(&s, false, rest == ["table"])
        }
        ["short", to] => {
            let (text, lines) = short_lines::text();
            write(to, text).unwrap();
            println!("sessions: {lines} short lines");
            true
        }
        _ => panic!("see the usage at the top of sessions.rs"),
    };
    std::process::exit(!all as i32);
}
