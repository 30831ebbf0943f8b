use super::*;
use crate::calls::{PLAIN, TUNED};
use crate::samples::bus;

/// The line of a case with the label "x".
fn line_of(kind: u8, parts: &[&[u8]]) -> String {
    let mut record = vec![kind, 1, b'x'];
    for part in &parts[..2] {
        record.extend((part.len() as u16).to_le_bytes());
        record.extend(*part);
    }
    record.extend(parts[2]);
    let found = line(&record, &TUNED).unwrap();
    assert_eq!(line(&record, &PLAIN).as_ref(), Some(&found));
    found
}

/// The listing's plan with tag 20 as holder, two bytes behind the image.
const HELD: [u8; 24] = [
    2, 1, 4, 18, 1, 1, 3, 0, 3, 0, 1, 255, 255, 255, 255, 255, 255, 255, 255, 255, 0, 0, 7, 8,
];
const FRESH: &str = "2 1 4 18 0 255 0 0 0 0 255 255 255 255 255 255 255 255 255 255 255 255";

#[test]
fn a_call_on_an_image() {
    let on = |lent: &[u8], call: &[u8]| line_of(b'I', &[&bus(), lent, call]);
    let waits =
        "x: word 0 1 0 3 0 0 0 0 | 2 1 4 18 2 1 3 0 3 0 1 0 255 255 255 255 255 255 0 0 0 0 7 8";
    assert_eq!(on(&HELD, b"Q\x0a\0\0"), waits);
    let free = format!("x: word 0 0 0 0 0 0 0 0 | {FRESH} 7 8");
    assert_eq!(on(&HELD, b"R\x14\0\0"), free);
    assert_eq!(on(&[3; 22], b"S\0\0\0"), free.trim_end_matches(" 7 8"));
    assert_eq!(on(&[], b"T\0\0\0"), "x: word 24 0 0 0 0 0 0 0 |");
    let as_it_was = format!("25 0 0 0 0 0 0 0 |{}", numbers(&[3; 22]));
    assert_eq!(on(&[3; 22], b"Q\x0a\x01\0"), format!("x: word {as_it_was}"));
    assert_eq!(on(&HELD, b"X\x0a\0\0"), "x: none");
}

#[test]
fn each_byte_changed() {
    let on = |lent: &[u8], mask| line_of(b'F', &[&bus(), lent, &[mask]]);
    // Hold left may be 1 to 3 where budget left is 3, and the two bytes behind may be anything.
    assert_eq!(on(&HELD, 0), "x: counts 0 0 24");
    assert_eq!(on(&HELD, 1), "x: counts 21 0 3");
    assert_eq!(on(&HELD, 3), "x: counts 22 0 2");
    assert_eq!(on(&HELD[..22], 1), "x: counts 21 0 1");
    assert_eq!(on(&HELD[..21], 1), "x: counts 0 21 0");
    assert_eq!(on(&[], 1), "x: counts 0 0 0");
    assert_eq!(line_of(b'F', &[b"", &HELD, &[1]]), "x: counts 0 24 0");
}
