//! Every short input: before an opening, and after one.
use crate::layout::LENGTHS;
use crate::session::hex;

/// Lines of one and two characters, records of two bytes, each kind at each length to 40 with three
/// fillings, the last in capitals too where they have letters; all but openings.
fn lines() -> Vec<Vec<u8>> {
    let characters: Vec<u8> = (0..=255).filter(|c| *c != b'\n').collect();
    let mut all: Vec<Vec<u8>> = vec![Vec::new()];
    all.extend(characters.iter().map(|c| vec![*c]));
    all.extend(characters.iter().flat_map(|c| characters.iter().map(|d| vec![*c, *d])));
    all.extend((0..=0xffff_u16).map(|record| hex(&record.to_be_bytes())));
    for kind in 0..=16 {
        for n in 1..=40 {
            for fill in [0x00, 0x01, 0xff] {
                let mut record = vec![fill; n];
                record[0] = kind;
                if kind != 0 || n != LENGTHS[0] {
                    let small = hex(&record);
                    let capitals = small.to_ascii_uppercase();
                    if capitals != small {
                        all.push(capitals);
                    }
                    all.push(small);
                }
            }
        }
    }
    all
}

/// The text, and how many lines it has.
pub fn text() -> (Vec<u8>, u64) {
    let (lines, opening) = (lines(), vec![hex(&[0; 29])]);
    let sessions = [&lines, &opening, &lines].map(|part| part.join(&b'\n'));
    (sessions.join(&b'\n'), 2 * lines.len() as u64 + 1)
}
