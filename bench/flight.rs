//! A session of flights without surprises, for measuring: no line is refused, and most are bytes from the
//! wire. The Rust unit runs along: it names each request, and its answers show that all goes as meant.
//!
//! A flight is opened, waits for its boot delay, has its idle check (0a, 0b), then 15,000 requests, 20 ms
//! apart. A request is asked (01), queued (02), acknowledged (03) and answered by ten bytes (05). Each
//! round of the four lanes ends with a look for timeouts (04), every 50th with a report (09, 0c, 0d, 0e).
//! One request in 250 loses a byte: it times out (04), the unit recovers (07), the next request is
//! answered and the retries are taken (08).
//!
//! Usage: flight LINES SEED SMALL CAPITALS; writes it in small letters and in capitals, and prints the number of lines of
//! each kind.
#[path = "../oracle/layout.rs"]
#[allow(dead_code)]
mod layout;
#[path = "../oracle/record_bytes.rs"]
mod record_bytes;
#[path = "../oracle/rng.rs"]
#[allow(dead_code)]
mod rng;
#[path = "../oracle/unit.rs"]
mod unit;
use esc_manager::{EscManagerConfig, DSHOT_IDLE_QUALIFICATION_CONFIG};
use ferrowasp_blheli_telemetry::crc8;
use layout::{print_line, LENGTHS};
use record_bytes::write_record;
use rng::Rng;
use unit::{Answer, Record, Status, Unit};

const REQUESTS: u64 = 15_000;

struct Session {
    g: Rng,
    now: u64,
    unit: Unit,
    text: Vec<u8>,
    lines: usize,
    /// Lines of each kind.
    kinds: [usize; LENGTHS.len()],
}

impl Session {
    /// A record, unless the session has its lines.
    fn send(&mut self, record: Record) -> Answer {
        if self.kinds.iter().sum::<usize>() < self.lines {
            let bytes = write_record(&record);
            self.kinds[bytes[0] as usize] += 1;
            print_line(&bytes, &mut self.text);
        }
        self.unit.step(record)
    }
    fn is_done(&self) -> bool {
        self.kinds.iter().sum::<usize>() == self.lines
    }

    /// What an ESC measures: warm, about 16 V, idling or flying.
    fn frame(&mut self, idle: bool) -> [u8; 10] {
        let g = &mut self.g;
        let erpm = if idle { 40 + g.n(40) } else { 100 + g.n(300) } as u16;
        let numbers = [1480 + g.n(200) as u16, g.n(3000) as u16, g.n(1300) as u16, erpm];
        let mut frame = [0; 10];
        frame[0] = 25 + g.n(50) as u8;
        for (field, n) in frame[1..9].chunks_exact_mut(2).zip(numbers) {
            field.copy_from_slice(&n.to_be_bytes());
        }
        frame[9] = crc8(&frame[..9]);
        frame
    }

    /// A request up to its bytes; `lost` is one of the ten that does not come. What the last brought.
    fn request(&mut self, idle: bool, lost: Option<usize>) -> Answer {
        // 20 ms after the one before, which took 2
        self.now += 18;
        let Answer::Request(Some((s, l))) = self.send(Record::Next(self.now)) else { panic!("no request") };
        assert_eq!(self.send(Record::Mark(s, l, self.now)), Answer::YesNo(true));
        self.now += 1;
        assert_eq!(self.send(Record::Ack(s, l, self.now, self.now)), Answer::Accepted);
        self.now += 1;
        let mut brought = Answer::NoSample;
        for (i, byte) in self.frame(idle).into_iter().enumerate() {
            if lost != Some(i) {
                brought = self.send(Record::Byte(byte, self.now));
            }
        }
        brought
    }
    fn delivered(&mut self, idle: bool) {
        assert!(matches!(self.request(idle, None), Answer::Delivered(..)));
    }

    fn idle_check(&mut self) {
        self.send(Record::Idle(DSHOT_IDLE_QUALIFICATION_CONFIG, self.now));
        loop {
            for _ in 0..4 {
                self.delivered(true);
            }
            match self.send(Record::Status(self.now)) {
                Answer::Status(Status::Pending) => {}
                status => return assert_eq!(status, Answer::Status(Status::Qualified)),
            }
        }
    }

    /// A request that loses a byte, and the way back.
    fn outage(&mut self) {
        let lost = self.g.n(10) as usize;
        assert_eq!(self.request(false, Some(lost)), Answer::NoSample);
        self.now += 100;
        assert!(matches!(self.send(Record::Poll(self.now)), Answer::TimedOut(Some((true, _, _)))));
        self.now += 500;
        assert_eq!(self.send(Record::Recover(false, self.now)), Answer::YesNo(true));
        self.delivered(false);
        assert_eq!(self.send(Record::Take), Answer::Note(Some(1)));
    }

    fn report(&mut self) {
        self.send(Record::Refresh);
        self.send(Record::Report);
        for lane in 0..4 {
            self.send(Record::Stored(lane));
            self.send(Record::Figures(lane));
        }
    }

    fn flight(&mut self) {
        self.now += 60_000;
        self.send(Record::Open(EscManagerConfig::legacy_uart(), self.now));
        self.now += 5_000;
        self.idle_check();
        for n in 1..=REQUESTS {
            if self.is_done() {
                return;
            }
            if self.g.chance(250) {
                self.outage();
            } else {
                self.delivered(false);
            }
            if n % 4 == 0 {
                assert_eq!(self.send(Record::Poll(self.now)), Answer::TimedOut(None));
            }
            if n % 200 == 0 {
                self.report();
            }
        }
    }
}

fn main() {
    let words: Vec<String> = std::env::args().skip(1).collect();
    let (lines, seed) = (words[0].parse().unwrap(), words[1].parse().unwrap());
    let unit = Unit::new(EscManagerConfig::legacy_uart(), 0);
    let mut s = Session { g: Rng::new(seed), now: 0, unit, text: Vec::new(), lines, kinds: [0; LENGTHS.len()] };
    while !s.is_done() {
        s.flight();
    }
    std::fs::write(&words[2], &s.text).unwrap();
    std::fs::write(&words[3], s.text.to_ascii_uppercase()).unwrap();
    let kinds: Vec<String> = s.kinds.iter().enumerate().filter(|(_, n)| **n > 0).map(|(kind, n)| format!("{kind:02x} {n}")).collect();
    println!("{lines} lines by kind: {}", kinds.join(", "));
}
