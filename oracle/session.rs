//! A session as it is made: its text, the reference that answers each line, and what was reached.
use crate::coverage::Coverage;
use crate::layout::{read_line, read_record, Lines};
use crate::letters;
use crate::noise;
use crate::record_bytes::write_record;
use crate::rng::Rng;
use crate::unit::{Answer, Record, Unit};

pub struct Session {
    pub g: Rng,
    pub text: Vec<u8>,
    pub answers: Vec<u8>,
    pub lines: u64,
    pub coverage: Coverage,
    pub reference: Lines,
    /// One line in so many is preceded by one that is refused; 0 is never.
    noise: u64,
    /// Chooses the letters of records; without it they are small.
    letters: Option<Rng>,
}

pub fn hex(bytes: &[u8]) -> Vec<u8> {
    bytes.iter().flat_map(|b| format!("{b:02x}").into_bytes()).collect()
}
/// The record on a line, unless the line itself refuses it.
pub fn record_on(line: &[u8]) -> Result<Record, u8> {
    read_line(line, &mut [0; 29]).and_then(read_record)
}

impl Session {
    pub fn new(seed: u64, noise: u64) -> Self {
        Self { g: Rng::new(seed), text: Vec::new(), answers: Vec::new(), lines: 0, coverage: Coverage::default(), reference: Lines::default(), noise, letters: None }
    }
    /// The same session, its records written in small letters, in capitals and in both. The letters have random numbers of
    /// their own, so the records are the same.
    pub fn in_any_letters(mut self, seed: u64) -> Self {
        self.letters = Some(Rng::new(seed));
        self
    }
    pub fn line(&mut self, line: &[u8]) -> Result<Answer, u8> {
        self.text.extend_from_slice(line);
        self.text.push(b'\n');
        self.lines += 1;
        let reply = self.reference.answer(line, &mut self.answers);
        self.coverage.see(line, &reply);
        reply
    }
    pub fn bytes(&mut self, record: &[u8]) -> Result<Answer, u8> {
        let mut line = hex(record);
        if let Some(g) = &mut self.letters {
            letters::any(g, &mut line);
        }
        self.line(&line)
    }
    /// A record to an open unit, or an opening; a line that changes nothing may come before it.
    pub fn send(&mut self, record: Record) -> Answer {
        if self.noise != 0 && self.g.chance(self.noise) {
            let line = noise::line(&mut self.g);
            if record_on(&line).is_err() {
                let _ = self.line(&line);
            }
        }
        self.bytes(&write_record(&record)).unwrap()
    }
    pub fn unit(&self) -> &Unit {
        self.reference.unit.as_ref().unwrap()
    }
    /// Takes the LF off the last line, which the end of input then ends.
    pub fn end_without_lf(&mut self) {
        self.text.pop();
        self.coverage.count("a last line without LF", 0);
    }
}
