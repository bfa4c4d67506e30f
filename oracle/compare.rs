//! Two answers to one session, byte for byte: shows the first difference with its input line.
//! Usage: compare TEXT WANTED PRINTED
use std::fs::read;

fn line(text: &[u8], n: usize) -> String {
    let line = text.split(|c| *c == b'\n').nth(n);
    line.map_or("nothing".to_string(), |l| l[..l.len().min(200)].escape_ascii().to_string())
}

fn main() {
    let [text, wanted, printed] = [1, 2, 3].map(|i| read(std::env::args().nth(i).unwrap()).unwrap());
    if wanted != printed {
        let same = wanted.iter().zip(&printed).take_while(|(a, b)| a == b).count();
        let n = wanted[..same].iter().filter(|c| **c == b'\n').count();
        println!("compare: first difference at line {}", n + 1);
        println!("  input      {}", line(&text, n));
        println!("  reference  {}", line(&wanted, n));
        println!("  unitlines  {}", line(&printed, n));
        std::process::exit(1);
    }
}
