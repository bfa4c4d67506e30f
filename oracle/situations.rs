//! The situations that a run must reach, by name.
use crate::layout::LENGTHS;
use crate::limits::{values, FIELDS};
use crate::noise::CHARACTERS;

/// A name, and a number that belongs to it: a lane, a kind, a count, a value.
pub type Situation = (&'static str, u64);

/// Every situation that a run must reach. `many` adds those that need thousands of lines each.
pub fn asked(many: bool) -> Vec<Situation> {
    let mut all: Vec<Situation> = Vec::new();
    let mut each = |name, numbers: &mut dyn Iterator<Item = u64>| all.extend(numbers.map(|n| (name, n)));
    for (name, _, _, bytes) in FIELDS {
        if bytes != 0 {
            each(name, &mut values(bytes).iter().copied());
        }
    }
    for name in [
        "01 request, lane", "02 yes, lane", "04 acknowledgement timeout, lane", "04 response timeout, lane", "0d none, lane",
        "0d sample, lane", "0d none after a recovery, lane", "0e none, lane", "0e figures, lane", "0e kept over a recovery, lane",
        "overspeed, lane",
    ] {
        each(name, &mut (0..4));
    }
    for name in ["03 sample, status", "05 sample, status", "0b status"] {
        each(name, &mut (0..6));
    }
    each("a verdict stays, status", &mut (2..6));
    each("invalid settings, cause", &mut (0..5));
    each("06 with bytes held", &mut (0..10));
    each("07 yes at the limit, retries", &mut (0..6));
    each("07 no, a ms early, retries", &mut (0..6));
    each("08 note", &mut (1..7));
    each("0c faulted and retrying", &mut [0, 1, 10, 11].into_iter());
    each("0c count above 0, its place", &mut (0..10));
    // 06, 08 and 09 have no letter, 0c, 0d and 0e have one
    each("in capitals, kind", &mut [0, 1, 2, 3, 4, 5, 7, 10, 11, 12, 13, 14].into_iter());
    each("in small letters and capitals, kind", &mut [0, 1, 2, 3, 4, 5, 7, 10, 11].into_iter());
    each("a capital", &mut (b'A'..=b'F').map(u64::from));
    each("a byte of both letters, the capital at", &mut (0..2));
    each("05, its byte in capitals, bytes held", &mut (0..10));
    each("refused with capitals, number", &mut (1..9));
    each("2: character", &mut CHARACTERS.iter().filter(|c| !c.is_ascii_hexdigit()).map(|c| *c as u64));
    each("3: characters", &mut (1..58).step_by(2));
    each("4: kind", &mut [0x0f, 0x10, 0x7f, 0x80, 0xff].into_iter());
    // a record of one byte has none to spare, and an opening with one more is too wide a line
    each("5: a byte short, kind", &mut (0..15).filter(|k| LENGTHS[*k as usize] > 1));
    each("5: a byte long, kind", &mut (1..15));
    for name in ["6: lane 4, kind", "6: lane 255, kind", "6 before 8, kind"] {
        each(name, &mut [2, 3, 13, 14].into_iter());
    }
    each("7: armed", &mut [2, 255].into_iter());
    each("8: kind", &mut (1..15));
    for name in ["refused with a request open, number", "refused inside a frame, number"] {
        each(name, &mut (1..8));
    }
    for name in ONCE {
        each(name, &mut (0..1));
    }
    if many {
        for name in ["01 a sequence above 255", "an idle count held at 255", "1: more than 65,536 characters"] {
            each(name, &mut (0..1));
        }
    }
    all
}

const ONCE: &[&str] = &[
    "00",
    "00 over an open request",
    "00 over bytes held",
    "00 over a fault",
    "01 none",
    "01 none, faulted",
    "01 none, a request open",
    "01 none, a ms before the boot delay",
    "01 none, a ms before the period",
    "01 request at the boot delay",
    "01 request at the period",
    "01 request, the clock wrapped since the boot",
    "02 no",
    "02 no, faulted",
    "02 no, a request open",
    "02 no, not yet",
    "02 no, another sequence",
    "02 no, another lane",
    "02 yes inside a frame",
    "03 accepted",
    "03 rejected",
    "03 rejected, nothing open",
    "03 rejected, another sequence",
    "03 rejected, another lane",
    "03 rejected, a second one",
    "03 rejected, a frame held",
    "03 sample, one early frame",
    "03 sample, the early frame replaced",
    "03 moves the quiet start",
    "03 leaves the quiet start",
    "04 none",
    "04 none, nothing open",
    "04 none, a ms before the acknowledgement timeout",
    "04 none, a ms before the response timeout",
    "04 acknowledgement timeout at its limit",
    "04 acknowledgement timeout, the clock wrapped",
    "04 response timeout at its limit",
    "04 response timeout, the clock wrapped",
    "04 drops a held frame",
    "04 timeout inside a frame",
    "05 none",
    "05 a wrong check byte",
    "05 a frame after a dropped byte",
    "05 a frame after a damaged one",
    "05 a frame that begins with 00",
    "05 a frame over a timeout",
    "05 a frame held",
    "05 a held frame replaced",
    "05 an unsolicited frame",
    "05 an unsolicited frame, faulted",
    "05 an unsolicited frame does not end retries",
    "05 sample, its bytes began before the 02",
    "05 moves the quiet start",
    "05 leaves the quiet start",
    "07 yes",
    "07 yes inside a frame",
    "07 yes drops stored samples",
    "07 no",
    "07 no, not faulted",
    "07 no, armed",
    "07 no, before the quiet start",
    "08 none",
    "08 none, the note was taken",
    "a note replaced by a later one",
    "09",
    "09 renews the counts",
    "0a",
    "0a after a verdict",
    "0a before a verdict",
    "0c counts not renewed",
    "0e hottest of an earlier sample",
    "a sample before the grace is over",
    "a sample a ms before the grace is over",
    "a sample when the grace is over",
    "eRPM at min",
    "eRPM at max",
    "eRPM one above max",
    "eRPM one below min clears its lane",
    "a sample at its age limit",
    "a sample expired by a ms",
    "age 2^32 - 1 expires at 2^32 - 1",
    "qualified after the timeout",
    "qualified, the clock wrapped",
    "qualified, more than one sample a lane",
    "idle timeout at its limit",
    "idle timeout with counts",
    "idle timeout, the clock wrapped",
    "idle timeout, a sample at its age limit counts",
    "idle timeout, a sample expired by a ms does not count",
    "idle timeout by a sample observed before it",
    "pending a ms before the idle timeout",
    "1: 59 characters",
    "1: more than 5,000 characters",
    "1 before 2",
    "2: 58 characters",
    "2 before 3",
    "2: a line ended by CR LF",
    "4: an empty line",
    "5 before 8",
    "7 before 8",
    "a last line without LF",
];
