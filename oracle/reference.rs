//! Document 01's `unitlines` over the two Rust files: standard input to standard output.
mod layout;
mod unit;
use std::io::{self, Read, Write};

fn main() -> io::Result<()> {
    let (mut stdin, mut stdout) = (io::stdin().lock(), io::stdout().lock());
    let mut lines = layout::Lines::default();
    let (mut chunk, mut held, mut out) = (vec![0; 1 << 16], Vec::new(), Vec::new());
    loop {
        let n = stdin.read(&mut chunk)?;
        if n == 0 {
            break;
        }
        let mut rest = &chunk[..n];
        while let Some(end) = rest.iter().position(|c| *c == b'\n') {
            let (line, after) = (&rest[..end], &rest[end + 1..]);
            let _ = if held.is_empty() {
                lines.answer(line, &mut out)
            } else {
                held.extend_from_slice(line);
                let reply = lines.answer(&held, &mut out);
                held.clear();
                reply
            };
            rest = after;
        }
        held.extend_from_slice(rest);
        stdout.write_all(&out)?;
        out.clear();
    }
    if !held.is_empty() {
        let _ = lines.answer(&held, &mut out);
    }
    stdout.write_all(&out)
}
