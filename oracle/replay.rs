//! A short session that reaches every situation: of many made, those that add the most for their length.
use crate::session::Session;
use crate::situations::{asked, Situation};
use crate::{flight, letters, limits, noise, scenes};
use std::collections::HashSet;

/// Times that each scene is tried.
const TRIES: u64 = 60;

struct Part {
    text: Vec<u8>,
    lines: u64,
    reached: HashSet<Situation>,
}
fn part(seed: u64, make: fn(&mut Session)) -> Part {
    let mut s = Session::new(seed, 0);
    make(&mut s);
    let reached = s.coverage.table(false).into_iter().filter(|(_, n)| *n > 0).map(|(situation, _)| situation).collect();
    Part { text: s.text, lines: s.lines, reached }
}

/// Lines before an opening, the session `first`, the parts, and last what there is in capitals.
pub fn replay(first: &[u8], seed: u64) -> Session {
    let mut all = Session::new(seed, 0);
    noise::unopened(&mut all);
    feed(&mut all, first);
    let makes = scenes::ALL.iter().copied().chain([limits::each as fn(&mut Session), flight, flight]);
    let seeds = |i| (0..TRIES).map(move |n| seed * 1_000_000 + i as u64 * 1000 + n);
    let parts: Vec<Part> = makes.enumerate().flat_map(|(i, make)| seeds(i).map(move |seed| part(seed, make))).collect();
    let mut missing: HashSet<Situation> = asked(false).into_iter().collect();
    let worth = |p: &Part, missing: &HashSet<Situation>| p.reached.intersection(missing).count() as u64 * 1_000_000 / p.lines;
    loop {
        for (situation, n) in all.coverage.table(false) {
            if n > 0 {
                missing.remove(&situation);
            }
        }
        match parts.iter().max_by_key(|p| worth(p, &missing)) {
            Some(best) if worth(best, &missing) > 0 => feed(&mut all, &best.text),
            _ => break,
        }
    }
    letters::each(&mut all);
    all.end_without_lf();
    all
}

fn feed(s: &mut Session, text: &[u8]) {
    for line in text.strip_suffix(b"\n").unwrap_or(text).split(|c| *c == b'\n') {
        let _ = s.line(line);
    }
}
