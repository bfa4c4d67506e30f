//! The capture search of libc_calls.a beside brute force (document 02, Q-3): the Rust has no search, so its `decode` is asked of every
//! window.
use crate::c_calls;
use crate::rng::Rng;
use crate::{bytes, stream};
use ferrowasp_blheli_telemetry::{crc8, decode};
use std::collections::BTreeMap;

/// Each capture is one of these. Of an overlap it is told by how many bytes, too.
const KINDS: [&str; 5] = ["shorter than a frame", "none", "one", "apart", "overlapping"];
/// The first good window is the first of several windows, the last of several, or far from the start.
const PLACES: [&str; 4] = ["first window", "last window", "start above 255", "start above 65535"];

/// How many captures were of each kind, of each overlap and at each place.
#[derive(Default)]
struct Searches(BTreeMap<String, u64>);
impl Searches {
    /// The least start whose ten bytes are a good frame, or the length exactly if there is none.
    fn search(&mut self, capture: &[u8]) {
        let good = |start: &usize| decode(capture[*start..start + 10].try_into().unwrap()).is_ok();
        let starts: Vec<usize> = (0..capture.len().saturating_sub(9)).filter(good).collect();
        let wanted = starts.first().copied().unwrap_or(capture.len());
        assert_eq!(c_calls::find_frame(capture), wanted, "searching {capture:02x?}, good are {starts:?}");

        let kind = match starts[..] {
            [] if capture.len() < 10 => "shorter than a frame",
            [] => "none",
            [_] => "one",
            [first, second, ..] if second - first < 10 => {
                self.reach(&format!("overlapping by {}", 10 - (second - first)));
                "overlapping"
            }
            _ => "apart",
        };
        self.reach(kind);
        if let Some(&first) = starts.first().filter(|_| capture.len() > 10) {
            let here = [first == 0, first + 10 == capture.len(), first > 255, first > 65535];
            PLACES.iter().zip(here).filter(|(_, here)| *here).for_each(|(place, _)| self.reach(place));
        }
    }
    fn reach(&mut self, situation: &str) {
        *self.0.entry(situation.to_string()).or_default() += 1;
    }
    fn count(&self, situation: &str) -> u64 {
        *self.0.get(situation).unwrap_or_else(|| panic!("no capture searched: {situation}"))
    }
    /// What was searched, in a sentence; no situation may be missing.
    fn told(&self) -> String {
        let overlaps = (1..10).map(|by| format!("overlapping by {by}"));
        for situation in overlaps.chain(PLACES.map(str::to_string)) {
            self.count(&situation);
        }
        let counts = KINDS.map(|kind| self.count(kind));
        let kinds: Vec<String> = KINDS.iter().zip(counts).map(|(kind, count)| format!("{kind} {count}")).collect();
        format!("captures searched {} ({})", counts.iter().sum::<u64>(), kinds.join(", "))
    }
}

/// Nine bytes, then one for each window: the CRC of the nine before it where the window is to be good, and else another byte.
fn windows(g: &mut Rng, good: impl Iterator<Item = bool>) -> Vec<u8> {
    let mut capture = bytes(g, 9);
    for good in good {
        let crc = crc8(&capture[capture.len() - 9..]);
        capture.push(if good { crc } else { crc ^ (1 + g.n(255) as u8) });
    }
    capture
}

/// Captures of noise, of zeros, with two frames in noise, with each choice of good windows among up to twelve, of streams, with few good
/// windows among many, and with the last alone.
pub fn searches(g: &mut Rng, rounds: u64) -> String {
    let mut searches = Searches::default();
    for n in 0..=30 {
        searches.search(&bytes(g, n));
        searches.search(&vec![0; n as usize]);
        for m in 0..=12 {
            let (before, after) = (bytes(g, n), bytes(g, m));
            searches.search(&[before, g.frame(m as u16).to_vec(), after, g.frame(n as u16).to_vec()].concat());
        }
    }
    for n in 0..=12 {
        for choice in 0..1 << n {
            let capture = windows(g, (0..n).map(|window| choice >> window & 1 == 1));
            searches.search(&capture);
        }
    }
    for _ in 0..rounds {
        let n = g.n(60) as usize;
        searches.search(&stream(g, n));
    }
    for _ in 0..rounds / 10 {
        let choices: Vec<bool> = (0..g.n(200)).map(|_| g.chance(40)).collect();
        let capture = windows(g, choices.into_iter());
        searches.search(&capture);
    }
    for n in [256, 257, 65536, 65537, 100000] {
        let capture = windows(g, (1..=n).map(|window| window == n));
        searches.search(&capture);
    }
    searches.told()
}
