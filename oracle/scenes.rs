//! Flights written out for what random ones seldom reach: each limit met and missed by a millisecond.
//! Every scene starts with an opening.
use crate::noise;
use crate::session::Session;
use crate::unit::{Answer, Record};
use esc_manager::{EscIdleQualificationConfig, EscManagerConfig};

pub const ALL: [fn(&mut Session); 12] =
    [turns, outage, cuts, qualified, limits_of_erpm, overspeed, expiry, timeout, invalid, wrapping, reopened, refused_inside];

fn config(boot: u32, period: u32, ack: u32, response: u32, quiet: u32) -> EscManagerConfig {
    EscManagerConfig {
        boot_delay_ms: boot,
        request_period_ms: period,
        actuator_ack_timeout_ms: ack,
        telemetry_response_timeout_ms: response,
        recovery_quiet_ms: quiet,
    }
}

/// A time with room for a flight before the clock wraps.
fn start(s: &mut Session) -> u64 {
    let base = s.g.pick(&[1000, (1 << 16) - 10, (1 << 32) - 10, 1 << 63]);
    base + s.g.n(20)
}

fn bytes(s: &mut Session, bytes: &[u8], t: u64) -> Answer {
    let mut last = Answer::NoSample;
    for b in bytes {
        last = s.send(Record::Byte(*b, t));
    }
    last
}
fn frame(s: &mut Session, erpm: u16, t: u64) -> Answer {
    let frame = s.g.frame(erpm);
    bytes(s, &frame, t)
}
/// The 02 of the request that there is.
fn queue(s: &mut Session, t: u64) -> (u32, u8) {
    let (q, l) = s.unit().next_request(t).unwrap();
    assert_eq!(s.send(Record::Mark(q, l, t)), Answer::YesNo(true));
    (q, l)
}
/// A turn that delivers: by the 05 at `t`, or by the 03 with `now`, the frame being early.
fn deliver(s: &mut Session, erpm: u16, t: u64, early: Option<u64>) -> Answer {
    let (q, l) = queue(s, t);
    match early {
        None => {
            s.send(Record::Ack(q, l, t, t));
            frame(s, erpm, t)
        }
        Some(now) => {
            frame(s, erpm, t);
            s.send(Record::Ack(q, l, t, now))
        }
    }
}
fn either(s: &mut Session, erpm: u16, t: u64) -> Answer {
    let early = s.g.chance(2).then_some(t);
    deliver(s, erpm, t, early)
}
/// All that can be asked without a change.
fn look(s: &mut Session) {
    s.send(Record::Report);
    for l in 0..4 {
        s.send(Record::Stored(l));
        s.send(Record::Figures(l));
    }
}

/// Requests at their times and before, frames early and late, damaged, cut and shortened.
fn turns(s: &mut Session) {
    let (boot, period) = (s.g.pick(&[1, 5, 5000, 65536]), s.g.pick(&[1, 20, 65536]));
    let (ack, response) = (s.g.pick(&[2, 20, 65536]), s.g.pick(&[2, 100, 65536]));
    let booted = start(s);
    s.send(Record::Open(config(boot, period, ack, response, 500), booted));
    look(s);
    let mut t = booted + boot as u64;
    let (mut q, mut l) = (0, 0);
    for turn in 0..4 + s.g.n(8) {
        s.send(Record::Next(t - 1));
        s.send(Record::Mark(q, l, t - 1));
        s.send(Record::Next(t));
        s.send(Record::Mark(q.wrapping_add(4), l, t));
        s.send(Record::Mark(q, (l + 1) % 4, t));
        let way = (turn + s.g.n(9)) % 9;
        let good = s.g.frame(50);
        let begun = if way == 8 { 1 + s.g.n(9) as usize } else { 0 };
        bytes(s, &good[..begun], t);
        assert_eq!(queue(s, t), (q, l));
        s.send(Record::Next(t));
        s.send(Record::Mark(q, l, t));
        s.send(Record::Poll(t + ack as u64 - 1));
        match way {
            1..=3 => {
                for _ in 0..way {
                    let erpm = s.g.n(100) as u16;
                    frame(s, erpm, t);
                    s.send(Record::Ack(q + 1, l, t, t));
                    s.send(Record::Ack(q, (l + 3) % 4, t, t));
                }
                s.send(Record::Ack(q, l, t, t + 1));
            }
            _ => {
                s.send(Record::Ack(q, l, t + 1, t + 1));
                s.send(Record::Ack(q, l, t + 1, t + 1));
                s.send(Record::Poll(t + response as u64));
                let mut wrong = s.g.frame(60).to_vec();
                match way {
                    4 => wrong[s.g.n(10) as usize] ^= 1 << s.g.n(8),
                    5 => {
                        wrong.remove(s.g.n(10) as usize);
                    }
                    6 => wrong.insert(s.g.n(10) as usize, s.g.byte()),
                    _ => wrong.clear(),
                }
                bytes(s, &wrong, t + 1);
                s.send(Record::Report);
                s.send(Record::Refresh);
                s.send(Record::Report);
                bytes(s, &good[begun..], t + 1);
                // a lost first byte can shift what follows; a cut ends that
                if s.unit().next_request(t + period as u64).is_none() {
                    s.send(Record::Cut);
                    frame(s, 50, t + 1);
                }
            }
        }
        look(s);
        frame(s, 40, t + 2);
        s.send(Record::Ack(q, l, t + 2, t + 2));
        s.send(Record::Poll(t + 2));
        s.send(Record::Cut);
        t += period as u64;
        (q, l) = (q + 1, (l + 1) % 4);
    }
}

/// Timeouts one after the other, recovered at the limit and not a millisecond before; then a sample.
fn outage(s: &mut Session) {
    let quiet = s.g.pick(&[1, 5, 500, 65536, u32::MAX]);
    let (ack, response) = (s.g.pick(&[1, 20, 65536]), s.g.pick(&[1, 100, 65536]));
    let mut t = start(s);
    s.send(Record::Open(config(0, 0, ack, response, quiet), t));
    for _ in 0..s.g.n(6) {
        either(s, 50, t);
    }
    look(s);
    for _ in 0..1 + s.g.n(2) {
        let outages = 1 + s.g.n(6);
        for r in 0..outages {
            let (q, l) = queue(s, t);
            if s.g.chance(2) {
                s.send(Record::Ack(q, l, t + 1, t + 1));
                s.send(Record::Poll(t + response as u64));
                t += 1 + response as u64;
            } else {
                if s.g.chance(2) {
                    frame(s, 50, t);
                }
                s.send(Record::Poll(t + ack as u64 - 1));
                t += ack as u64;
            }
            let torn = s.g.frame(50);
            let begun = s.g.pick(&[0, 0, 3, 9]);
            bytes(s, &torn[..begun], t);
            assert_ne!(s.send(Record::Poll(t)), Answer::TimedOut(None));
            if s.g.chance(2) {
                bytes(s, &torn[begun..], t);
            }
            s.send(Record::Next(t));
            s.send(Record::Mark(q + 1, (l + 1) % 4, t));
            match s.g.n(6) {
                0 => {
                    s.send(Record::Byte(7, t - 1));
                    s.send(Record::Ack(q, l, t - 1, t + 9));
                }
                1 => {
                    t += 3;
                    s.send(Record::Byte(7, t));
                }
                2 => {
                    t += 4;
                    s.send(Record::Ack(q, l, t, t));
                }
                3 => {
                    frame(s, 50, t);
                    s.send(Record::Byte(7, t));
                }
                _ => {}
            }
            s.send(Record::Report);
            let needed = (quiet as u64) << r.min(3);
            s.send(Record::Recover(false, t + needed - 1));
            s.send(Record::Recover(false, t - 1));
            s.send(Record::Recover(true, t + needed));
            assert_eq!(s.send(Record::Recover(false, t + needed)), Answer::YesNo(true));
            s.send(Record::Recover(false, t + needed));
            t += needed;
            look(s);
            frame(s, 50, t);
        }
        s.send(Record::Take);
        either(s, 50, t);
        look(s);
        if s.g.chance(2) {
            s.send(Record::Take);
            s.send(Record::Take);
        }
    }
}

/// A cut after each number of bytes, and a whole frame after it.
fn cuts(s: &mut Session) {
    let t = start(s);
    s.send(Record::Open(config(0, 0, 20, 100, 500), t));
    for n in 0..10 {
        let part = s.g.frame(50);
        bytes(s, &part[..n], t);
        s.send(Record::Cut);
        either(s, 50, t);
    }
}

fn idle(min: u16, max: u16, grace: u32, timeout: u32, age: u32, required: u8) -> EscIdleQualificationConfig {
    EscIdleQualificationConfig {
        min_erpm_div100: min,
        max_erpm_div100: max,
        spinup_grace_ms: grace,
        timeout_ms: timeout,
        max_sample_age_ms: age,
        required_consecutive_samples: required,
    }
}
/// A unit that never times out, and a check from `t` on.
fn checked(s: &mut Session, check: EscIdleQualificationConfig, t: u64) {
    s.send(Record::Open(config(0, 0, u32::MAX, u32::MAX, 1), t));
    s.send(Record::Status(t));
    s.send(Record::Idle(check, t));
}
/// After a verdict nothing changes it, until a new check.
fn after_verdict(s: &mut Session, t: u64) {
    s.send(Record::Status(t));
    deliver(s, 50, t, None);
    deliver(s, 50, t, Some(t));
    s.send(Record::Status(t));
    if s.g.chance(2) {
        s.send(Record::Idle(idle(30, 100, 0, 60_000, 200, 1), t));
        s.send(Record::Status(t));
        either(s, 50, t);
        s.send(Record::Idle(idle(30, 100, 0, 60_000, 200, 1), t));
    }
}

/// Samples ignored in the grace time, then enough of them; perhaps after the timeout.
fn qualified(s: &mut Session) {
    let (required, late, begun) = (1 + s.g.n(3), s.g.chance(2), start(s));
    checked(s, idle(30, 100, 250, 1200, u32::MAX - 1, required as u8), begun);
    either(s, 101, begun + 249);
    either(s, 30, begun + 250);
    let mut t = begun + 250;
    for more in (0..4 * required - 1).rev() {
        if more == 0 && late {
            t = begun + 1200 + s.g.n(5);
        } else {
            s.send(Record::Status(t));
        }
        let erpm = s.g.pick(&[30, 31, 99, 100]);
        let early = s.g.chance(2).then_some(t);
        deliver(s, erpm, t, early);
        t += 1;
    }
    after_verdict(s, t);
}

/// The eRPM at min and max, and one below min.
fn limits_of_erpm(s: &mut Session) {
    let (min, max) = s.g.pick(&[(30, 100), (1, 2), (255, 256), (u16::MAX - 2, u16::MAX - 1), (1, u16::MAX)]);
    let t = start(s);
    checked(s, idle(min, max, 0, 1200, 200, 2), t);
    for n in 0..12 {
        let erpm = if n == 5 { min - 1 } else { s.g.pick(&[min, max]) };
        either(s, erpm, t + n);
    }
    s.send(Record::Status(t + 300));
    s.send(Record::Status(t + 1200));
    after_verdict(s, t + 1200);
}

/// One above max, on each lane.
fn overspeed(s: &mut Session) {
    let (max, t) = (s.g.pick(&[100, 256, u16::MAX - 1]), start(s));
    for lane in 0..4 {
        checked(s, idle(30, max, 0, 1200, 200, 1), t);
        for _ in 0..lane {
            either(s, max, t);
        }
        either(s, max + 1, t);
        after_verdict(s, t);
    }
}

/// A sample at its age limit and a millisecond older; and one that was old when it was delivered.
fn expiry(s: &mut Session) {
    let (age, t) = (s.g.pick(&[1, 200, 65536, u32::MAX - 1, u32::MAX]), start(s));
    let limit = age.saturating_add(1) as u64;
    checked(s, idle(30, 100, 0, u32::MAX, age, 1), t);
    either(s, 50, t);
    s.send(Record::Status(t + limit - 1));
    s.send(Record::Status(t + limit));
    deliver(s, 50, t, Some(t + limit - 1));
    deliver(s, 50, t, Some(t + limit));
    // a timeout shows which of them count
    for end in [limit - 1, limit] {
        checked(s, idle(30, 100, 0, end as u32, age, 2), t);
        either(s, 50, t);
        s.send(Record::Status(t + end));
        after_verdict(s, t + end);
    }
}

/// Pending a millisecond before the timeout; then the timeout, by each record that can tell it.
fn timeout(s: &mut Session) {
    let (timeout, t) = (s.g.pick(&[1, 1200, 65536, u32::MAX]), start(s));
    let end = t + timeout as u64;
    for by in 0..3 {
        checked(s, idle(30, 100, 0, timeout, u32::MAX, 2), t);
        for _ in 0..s.g.n(6) {
            either(s, 50, t);
        }
        s.send(Record::Status(end - 1));
        match by {
            0 => s.send(Record::Status(end)),
            1 => deliver(s, 50, end, None),
            _ => deliver(s, 50, end - 1, Some(end)),
        };
        after_verdict(s, end);
    }
}

/// Settings with one fault each.
fn invalid(s: &mut Session) {
    let t = start(s);
    let faults = [idle(0, 100, 0, 10, 5, 1), idle(100, 100, 0, 10, 5, 1), idle(30, 100, 10, 10, 5, 1), idle(30, 100, 0, 10, 0, 1), idle(30, 100, 0, 10, 5, 0)];
    for fault in faults {
        checked(s, fault, t);
        match s.g.n(3) {
            0 => s.send(Record::Status(t)),
            1 => deliver(s, 50, t, None),
            _ => deliver(s, 50, t, Some(t)),
        };
        after_verdict(s, t);
    }
}

/// The clock wraps between start and now; recovery alone does not take it for elapsed time.
fn wrapping(s: &mut Session) {
    let t = u64::MAX - s.g.n(4);
    s.send(Record::Open(config(20, 20, 20, 20, 5), t));
    s.send(Record::Next(t.wrapping_add(19)));
    s.send(Record::Next(t.wrapping_add(20)));
    for response in [false, true] {
        s.send(Record::Open(config(0, 0, 20, 20, 5), t));
        let (q, l) = queue(s, t);
        if response {
            s.send(Record::Ack(q, l, t, t));
        }
        s.send(Record::Poll(t.wrapping_add(19)));
        s.send(Record::Poll(t.wrapping_add(20)));
        s.send(Record::Recover(false, t.wrapping_add(25)));
        s.send(Record::Byte(0, u64::MAX));
        s.send(Record::Recover(false, 4));
        s.send(Record::Recover(false, u64::MAX));
    }
    checked(s, idle(30, 100, 10, 100, 50, 1), t);
    for n in 0..5 {
        either(s, 50, t.wrapping_add(10 + n));
    }
    checked(s, idle(30, 100, 10, 100, 50, 1), t);
    either(s, 50, t.wrapping_add(10));
    s.send(Record::Status(t.wrapping_add(60)));
    s.send(Record::Status(t.wrapping_add(61)));
    s.send(Record::Status(t.wrapping_add(100)));
}

/// An opening over all that a unit can hold.
fn reopened(s: &mut Session) {
    let t = start(s);
    let open = Record::Open(config(0, 0, 20, 100, 500), t);
    s.send(open);
    queue(s, t);
    let part = s.g.frame(50);
    bytes(s, &part[..5], t);
    s.send(open);
    bytes(s, &part[5..], t);
    look(s);
    queue(s, t);
    s.send(Record::Poll(t + 20));
    s.send(open);
    either(s, 50, t);
    look(s);
}

/// Every sort of refused line with a request open, half a frame held: the sample comes all the same.
fn refused_inside(s: &mut Session) {
    let t = start(s);
    s.send(Record::Open(config(0, 0, 20, 100, 500), t));
    let (q, l) = queue(s, t);
    s.send(Record::Ack(q, l, t, t));
    let good = s.g.frame(50);
    bytes(s, &good[..5], t);
    noise::refused(s);
    bytes(s, &good[5..], t);
    look(s);
}

/// An idle count to 255 and beyond, and sequences above 255: some thousand lines.
pub fn many(s: &mut Session) {
    let t = start(s);
    s.send(Record::Open(config(0, 0, 0, 100, 0), t));
    s.send(Record::Idle(idle(30, 100, 0, 1200, u32::MAX, 255), t));
    for _ in 0..257 {
        deliver(s, 50, t, None);
        for _ in 0..3 {
            queue(s, t);
            s.send(Record::Poll(t));
            s.send(Record::Recover(false, t));
        }
    }
    s.send(Record::Next(t));
    s.send(Record::Status(t + 1200));
    look(s);
}
