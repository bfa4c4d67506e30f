//! Document 01's rules for kinds 01 to 0e, written as functions of the records and answers so far, and
//! compared with the two Rust files on random flights. Figures, which the Rust has not, are written
//! down twice.
//! Usage: rules LISTS SEED
mod flights;
mod rng;
mod unit;
use esc_manager::*;
use ferrowasp_blheli_telemetry::crc8;
use unit::{Answer, Record, Sample, Status, Unit};

fn due(start: u64, now: u64, d: u32) -> bool {
    now.wrapping_sub(start) >= d as u64
}

type H = Vec<(Record, Answer)>;
fn yes(a: &Answer) -> bool {
    *a == Answer::YesNo(true)
}
fn granted(e: &(Record, Answer)) -> Option<(u32, u8, u64)> {
    match e {
        (Record::Mark(s, l, t), a) if yes(a) => Some((*s, *l, *t)),
        _ => None,
    }
}
fn timed_out(e: &(Record, Answer)) -> Option<u64> {
    match e {
        (Record::Poll(t), Answer::TimedOut(Some(_))) => Some(*t),
        _ => None,
    }
}
fn delivered(e: &(Record, Answer)) -> Option<Sample> {
    match e {
        (_, Answer::Delivered(s, _)) => Some(*s),
        _ => None,
    }
}
fn is_cut(e: &(Record, Answer)) -> bool {
    match e {
        (Record::Cut, _) => true,
        (Record::Recover(..), a) => yes(a),
        _ => false,
    }
}
/// Per entry of the history: None no 05; else (window of ten without a frame end among its nine
/// and without a cut, if there is one; frame end).
fn framing(h: &H) -> Vec<Option<(Option<[u8; 10]>, bool)>> {
    let mut out: Vec<Option<(Option<[u8; 10]>, bool)>> = Vec::new();
    for i in 0..h.len() {
        let Record::Byte(b, _) = h[i].0 else {
            out.push(None);
            continue;
        };
        let mut w = vec![b];
        let mut whole = true;
        let mut j = i;
        while w.len() < 10 {
            if j == 0 {
                whole = false;
                break;
            }
            j -= 1;
            if is_cut(&h[j]) {
                whole = false;
                break;
            }
            if let Record::Byte(b, _) = h[j].0 {
                if out[j].unwrap().1 {
                    whole = false;
                    break;
                }
                w.push(b);
            }
        }
        if whole {
            w.reverse();
            let win: [u8; 10] = w.try_into().unwrap();
            out.push(Some((Some(win), crc8(&win[..9]) == win[9])));
        } else {
            out.push(Some((None, false)));
        }
    }
    out
}
/// Index of the 02 of the open request.
fn open(h: &H) -> Option<usize> {
    for i in (0..h.len()).rev() {
        if delivered(&h[i]).is_some() || timed_out(&h[i]).is_some() {
            return None;
        }
        if granted(&h[i]).is_some() {
            return Some(i);
        }
    }
    None
}
fn acked(h: &H, i: usize) -> Option<u64> {
    let (s, l, _) = granted(&h[i]).unwrap();
    h[i + 1..].iter().find_map(|e| match e {
        (Record::Ack(s2, l2, st, _), _) if *s2 == s && *l2 == l => Some(*st),
        _ => None,
    })
}
fn faulted(h: &H) -> bool {
    for e in h.iter().rev() {
        if timed_out(e).is_some() {
            return true;
        }
        if matches!(e, (Record::Recover(..), a) if yes(a)) {
            return false;
        }
    }
    false
}
fn retries(h: &H) -> u32 {
    let mut n = 0;
    for e in h.iter().rev() {
        if delivered(e).is_some() {
            break;
        }
        if matches!(e, (Record::Recover(..), a) if yes(a)) {
            n += 1;
        }
    }
    n
}
fn exists(h: &H, c: &EscManagerConfig, boot: u64, t: u64) -> Option<(u32, u8)> {
    let n = h.iter().filter(|e| granted(e).is_some()).count();
    let last = h.iter().rev().find_map(granted);
    if faulted(h) || open(h).is_some() || !due(boot, t, c.boot_delay_ms) {
        return None;
    }
    if let Some((_, _, q)) = last {
        if !due(q, t, c.request_period_ms) {
            return None;
        }
    }
    let l = match last {
        None => 0,
        Some((_, l, _)) => (l + 1) % 4,
    };
    Some((n as u32, l))
}
fn idle_valid(c: &EscIdleQualificationConfig) -> bool {
    0 < c.min_erpm_div100 && c.min_erpm_div100 < c.max_erpm_div100 && c.spinup_grace_ms < c.timeout_ms && c.max_sample_age_ms > 0 && c.required_consecutive_samples > 0
}
/// Status at a new 0b (s None) or a delivered sample, from the history since the latest 0a.
fn idle(h: &H, new: Option<Sample>, now: u64) -> Status {
    let Some(k) = h.iter().rposition(|e| matches!(e.0, Record::Idle(..))) else {
        return Status::NoCheck;
    };
    let Record::Idle(c, start) = h[k].0 else { unreachable!() };
    // a verdict stays
    for e in &h[k + 1..] {
        match e {
            (_, Answer::Delivered(_, s)) | (_, Answer::Status(s)) if !matches!(s, Status::Pending | Status::NoCheck) => return *s,
            _ => {}
        }
    }
    if !idle_valid(&c) {
        return Status::Invalid;
    }
    let mut count = [0u8; 4];
    let mut newest: [Option<u64>; 4] = [None; 4];
    let expire = |count: &mut [u8; 4], newest: &[Option<u64>; 4], now: u64| {
        for i in 0..4 {
            if let Some(o) = newest[i] {
                if due(o, now, c.max_sample_age_ms.saturating_add(1)) {
                    count[i] = 0;
                }
            }
        }
    };
    let mut entries: Vec<(Option<Sample>, u64)> = Vec::new();
    for e in &h[k + 1..] {
        match e {
            (Record::Byte(_, t), Answer::Delivered(s, _)) => entries.push((Some(*s), *t)),
            (Record::Ack(_, _, _, t), Answer::Delivered(s, _)) => entries.push((Some(*s), *t)),
            (Record::Status(t), _) => entries.push((None, *t)),
            _ => {}
        }
    }
    entries.push((new, now));
    let n = entries.len();
    for (i, (s, t)) in entries.into_iter().enumerate() {
        if let Some((l, _, o, p)) = s {
            if !due(start, t, c.spinup_grace_ms) {
                if i + 1 == n {
                    return Status::Pending;
                }
                continue;
            }
            let l = l as usize;
            let e = u16::from_be_bytes([p[7], p[8]]);
            newest[l] = Some(o); // the paper's newest: the last counted one, in or out of limits
            if e > c.max_erpm_div100 {
                return Status::Overspeed(l as u8, e);
            }
            if e < c.min_erpm_div100 {
                count[l] = 0;
            } else {
                count[l] = count[l].saturating_add(1);
            }
        }
        expire(&mut count, &newest, t);
        if i + 1 == n {
            if count.iter().all(|x| *x >= c.required_consecutive_samples) {
                return Status::Qualified;
            }
            if due(start, t, c.timeout_ms) {
                return Status::Timeout(count);
            }
        }
    }
    Status::Pending
}
fn paper(h: &H, c: &EscManagerConfig, boot: u64, r: Record) -> Answer {
    match r {
        Record::Next(t) => Answer::Request(exists(h, c, boot, t)),
        Record::Mark(s, l, t) => Answer::YesNo(exists(h, c, boot, t) == Some((s, l))),
        Record::Ack(s, l, _, now) => {
            let Some(i) = open(h) else { return Answer::Rejected };
            let (s0, l0, _) = granted(&h[i]).unwrap();
            if (s, l) != (s0, l0) || acked(h, i).is_some() {
                return Answer::Rejected;
            }
            let f = framing(h);
            for j in (i + 1..h.len()).rev() {
                if let (Some((Some(w), true)), Record::Byte(_, t)) = (f[j], h[j].0) {
                    let smp = (l, s, t, w[..9].try_into().unwrap());
                    return Answer::Delivered(smp, idle(h, Some(smp), now));
                }
            }
            Answer::Accepted
        }
        Record::Poll(t) => {
            let Some(i) = open(h) else { return Answer::TimedOut(None) };
            let (s, l, q) = granted(&h[i]).unwrap();
            Answer::TimedOut(match acked(h, i) {
                None => due(q, t, c.actuator_ack_timeout_ms).then_some((false, s, l)),
                Some(st) => due(st, t, c.telemetry_response_timeout_ms).then_some((true, s, l)),
            })
        }
        Record::Byte(_, t) => {
            let mut h2 = h.clone();
            h2.push((r, Answer::NoSample));
            let f = framing(&h2);
            let Some((Some(w), true)) = f[h2.len() - 1] else { return Answer::NoSample };
            let Some(i) = open(h) else { return Answer::NoSample };
            if acked(h, i).is_none() {
                return Answer::NoSample;
            }
            let (s, l, _) = granted(&h[i]).unwrap();
            let smp = (l, s, t, w[..9].try_into().unwrap());
            Answer::Delivered(smp, idle(h, Some(smp), t))
        }
        Record::Open(..) | Record::Cut | Record::Refresh | Record::Idle(..) => Answer::Nothing,
        Record::Recover(armed, t) => {
            if !faulted(h) || armed {
                return Answer::YesNo(false);
            }
            let k = h.iter().rposition(|e| timed_out(e).is_some()).unwrap();
            let mut q = timed_out(&h[k]).unwrap();
            for e in &h[k + 1..] {
                match e.0 {
                    Record::Byte(_, t) => q = q.max(t),
                    Record::Ack(_, _, st, _) => q = q.max(st),
                    _ => {}
                }
            }
            let since = if t < q { 0 } else { t - q };
            Answer::YesNo(since as u128 >= c.recovery_quiet_ms as u128 * (1u128 << retries(h).min(3)))
        }
        Record::Take => {
            // the latest delivery with retries not 0, unless an 08 came since
            for i in (0..h.len()).rev() {
                if matches!(h[i].0, Record::Take) {
                    return Answer::Note(None);
                }
                if delivered(&h[i]).is_some() {
                    let n = retries(&h[..i].to_vec());
                    if n != 0 {
                        return Answer::Note(Some(n));
                    }
                }
            }
            Answer::Note(None)
        }
        Record::Status(t) => Answer::Status(idle(h, None, t)),
        Record::Report => {
            let f = framing(h);
            let mut x = [0u32; 10];
            let mut cur = [0u32; 3];
            for (i, e) in h.iter().enumerate() {
                if granted(e).is_some() {
                    x[0] += 1;
                }
                match e {
                    (Record::Ack(..), Answer::Rejected) => x[4] += 1,
                    (Record::Ack(..), _) => x[1] += 1,
                    (Record::Poll(_), Answer::TimedOut(Some((false, _, _)))) => x[2] += 1,
                    (Record::Poll(_), Answer::TimedOut(Some((true, _, _)))) => x[3] += 1,
                    (Record::Recover(..), a) if yes(a) => x[6] += 1,
                    (Record::Refresh, _) => x[7..].copy_from_slice(&cur),
                    _ => {}
                }
                match f[i] {
                    Some((Some(_), true)) => {
                        cur[0] += 1;
                        x[7..].copy_from_slice(&cur);
                        if open(&h[..i].to_vec()).is_none() {
                            x[5] += 1;
                        }
                    }
                    Some((Some(_), false)) => {
                        cur[1] += 1;
                        cur[2] += 1;
                    }
                    _ => {}
                }
            }
            Answer::Report(faulted(h), retries(h) != 0, x)
        }
        Record::Figures(l) => {
            let of_lane: Vec<[u8; 9]> = h.iter().filter_map(delivered).filter(|s| s.0 == l).map(|s| s.3).collect();
            Answer::Figures(
                of_lane.len() as u32,
                of_lane.iter().map(|p| p[0]).max().unwrap_or(0),
                of_lane.iter().map(|p| u16::from_be_bytes([p[1], p[2]])).min().unwrap_or(0),
            )
        }
        Record::Stored(l) => {
            for e in h.iter().rev() {
                if matches!(e, (Record::Recover(..), a) if yes(a)) {
                    return Answer::Stored(None);
                }
                if let Some(s) = delivered(e) {
                    if s.0 == l {
                        return Answer::Stored(Some(s));
                    }
                }
            }
            Answer::Stored(None)
        }
    }
}

fn main() {
    let words: Vec<u64> = std::env::args().skip(1).map(|w| w.parse().unwrap()).collect();
    let (lists, mut g) = (words[0], rng::Rng::new(words[1]));
    let (mut records, mut samples, mut qualified, mut over, mut timeouts, mut recoveries, mut notes, mut unsolicited) = (0u64, 0u64, 0u64, 0u64, 0u64, 0u64, 0u64, 0u64);
    let mut first_by_status = 0u64;
    for n in 0..lists {
        let mut flight = flights::Flight::new(&mut g);
        let (c, boot) = (flight.config, flight.boot);
        let mut unit = Unit::new(c, boot);
        unit.step(flight.opening());
        let mut h: H = Vec::new();
        for _ in 0..40 + g.n(260) {
            let r = flight.next(&mut g, &unit);
            let want = paper(&h, &c, boot, r);
            let got = unit.step(r);
            if want != got {
                println!("list {n}: differ at record {} {r:?}\n  paper {want:?}\n  Rust  {got:?}", h.len());
                for e in &h {
                    println!("    {e:?}");
                }
                println!("  config {c:?} boot {boot}");
                std::process::exit(1);
            }
            records += 1;
            match got {
                Answer::Delivered(_, s) => {
                    samples += 1;
                    qualified += (s == Status::Qualified) as u64;
                    over += matches!(s, Status::Overspeed(..)) as u64;
                }
                Answer::TimedOut(Some(_)) => timeouts += 1,
                Answer::Note(Some(_)) => notes += 1,
                Answer::Report(_, _, x) => unsolicited += (x[5] != 0) as u64,
                Answer::Status(Status::Qualified) => {
                    let k = h.iter().rposition(|e| matches!(e.0, Record::Idle(..))).unwrap();
                    let before = h[k..].iter().any(|e| matches!(e.1, Answer::Delivered(_, Status::Qualified) | Answer::Status(Status::Qualified)));
                    first_by_status += !before as u64;
                }
                Answer::YesNo(true) if matches!(r, Record::Recover(..)) => recoveries += 1,
                _ => {}
            }
            flight.saw(&r, &got);
            h.push((r, got));
        }
    }
    println!("lists {lists}, records {records}: no answer differs");
    println!("  samples {samples}, qualified {qualified}, overspeed {over}, timeouts {timeouts}, recoveries {recoveries}, notes {notes}, reports with unsolicited {unsolicited}, first Qualified by 0b {first_by_status}");
}
