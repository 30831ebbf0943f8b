//! The peer on the cases of `crates/cases`, whose results were written by hand, or by a model in the case of sheets.

use peer::{calls, cases};

const FOLDER: &str = concat!(env!("CARGO_MANIFEST_DIR"), "/../crates/cases/");

#[test]
fn every_case_gives_its_result_by_both_machines() {
    let input = std::fs::read(format!("{FOLDER}stdin")).unwrap();
    let results = std::fs::read_to_string(format!("{FOLDER}stdout")).unwrap();
    let (mut left, mut to_come) = (&input[..], &results[..]);
    while let Some((length, rest)) = left.split_first_chunk() {
        let (record, rest) = rest.split_at(u32::from_le_bytes(*length) as usize);
        let lines = cases::line(record, &calls::TUNED).unwrap();
        assert_eq!(cases::line(record, &calls::PLAIN).as_ref(), Some(&lines));
        // As many lines as the peer has for the case, which is one but where it prints some.
        let count = lines.split('\n').count();
        let end: usize = to_come
            .split_inclusive('\n')
            .take(count)
            .map(str::len)
            .sum();
        assert_eq!(to_come[..end], lines + "\n");
        (left, to_come) = (rest, &to_come[end..]);
    }
    assert!(left.is_empty() && to_come.is_empty());
}
