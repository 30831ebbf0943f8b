use super::*;
use crate::calls::{PLAIN, TUNED};
use crate::samples::{bus, file, in_pieces, LISTING};

const MODES: [Mode; 3] = [Mode::Each(TUNED), Mode::Once, Mode::Each(PLAIN)];

/// What is printed, which is the same in all modes and for all sizes of pieces.
fn printed(input: &[u8]) -> String {
    let by = |mode, size| in_pieces(input, size, |input, output| run(input, output, mode));
    let whole = by(&MODES[0], usize::MAX);
    for mode in &MODES {
        for size in [1, 2, 7, 64, usize::MAX] {
            assert_eq!(by(mode, size), whole, "pieces of {size}");
        }
    }
    whole
}

fn after(plan: &[u8], calls: &[u8]) -> String {
    let printed = printed(&[plan, calls].concat());
    let (_, lines) = printed.split_once('\n').unwrap();
    lines.to_string()
}

/// What the listing's plan prints after a change.
fn changed(change: impl FnOnce(&mut Vec<u8>)) -> String {
    let mut file = bus();
    change(&mut file);
    printed(&file)
}

#[test]
fn the_listing() {
    let expected = "plan 2 2 1 2\n\
        granted 20 bus\n\
        waits 10 bus 0 3\n\
        tick 0 0\n\
        tick 0 0\n\
        tick 1 1\n\
        refused 16\n\
        released 10 bus free\n";
    assert_eq!(printed(&[&bus()[..], LISTING].concat()), expected);
}

#[test]
fn a_release_to_another() {
    let lines = after(&bus(), b"Q\x14\0Q\x0a\0R\x14\0");
    assert_eq!(
        lines,
        "granted 20 bus\nwaits 10 bus 0 3\nreleased 20 bus to 10\n"
    );
}

#[test]
fn a_give_up() {
    let lines = after(&bus(), b"Q\x14\0Q\x0a\0W\x0a\0Q\x0a\0R\x14\0W\x14\0");
    assert_eq!(
        lines,
        "granted 20 bus\nwaits 10 bus 0 3\nleft 10 bus\nwaits 10 bus 0 3\nreleased 20 bus to 10\nrefused 23\n"
    );
}

#[test]
fn each_refusal_of_a_plan_is_one_line() {
    assert_eq!(printed(b""), "refused 1\n");
    assert_eq!(changed(|f| f.truncate(15)), "refused 1\n");
    assert_eq!(changed(|f| f.truncate(f.len() - 1)), "refused 1\n");
    assert_eq!(changed(|f| (f[14], f[15]) = (15, 0)), "refused 1\n");
    assert_eq!(changed(|f| (f[14], f[15]) = (255, 255)), "refused 1\n");
    assert_eq!(changed(|f| f[0] = 2), "refused 2\n");
    assert_eq!(changed(|f| f[1] = 9), "refused 3\n");
    assert_eq!(changed(|f| f[6] = 17), "refused 4\n");
    assert_eq!(changed(|f| f[16 + 3] = 1), "refused 5\n");
    assert_eq!(changed(|f| f[16 + 8 + 1] = 10), "refused 6\n");
    assert_eq!(changed(|f| *f.last_mut().unwrap() = 32), "refused 7\n");
    assert_eq!(changed(|f| f[16 + 16 + 4 + 2] = 0), "refused 8\n");
    assert_eq!(changed(|f| f[16 + 16 + 4 + 2] = 6), "refused 9\n");
}

#[test]
fn nothing_follows_a_refused_plan() {
    assert_eq!(
        changed(|f| {
            f[0] = 2;
            f.extend(b"T\0\0T");
        }),
        "refused 2\n"
    );
}

#[test]
fn each_refusal_of_a_call() {
    let tasks = [(0, 10, 1, 9, 9), (1, 20, 1, 9, 9), (0, 30, 2, 9, 9)];
    let plan = file(2, 2, &tasks, &[(0, 0, 2), (1, 0, 3), (0, 1, 1)]);
    assert_eq!(after(&plan, b"Q\x0b\0"), "refused 11\n");
    assert_eq!(after(&plan, b"Q\x0a\x02"), "refused 12\n");
    assert_eq!(after(&plan, b"Q\x1e\0"), "refused 13\n");
    assert_eq!(after(&plan, b"Q\x0a\x01"), "refused 14\n");
    assert_eq!(
        after(&plan, b"Q\x0a\0Q\x0a\0"),
        "granted 10 A\nrefused 15\n"
    );
    assert_eq!(after(&plan, b"R\x0b\0"), "refused 11\n");
    assert_eq!(after(&plan, b"R\x0a\x02"), "refused 12\n");
    assert_eq!(after(&plan, b"R\x0a\x01"), "refused 16\n");
    assert_eq!(after(&plan, b"W\x0b\x02"), "refused 11\n");
    assert_eq!(after(&plan, b"W\x0a\x02"), "refused 12\n");
    assert_eq!(after(&plan, b"W\x0a\x01"), "refused 23\n");
    assert_eq!(
        after(&plan, b"Q\x0a\0W\x0a\0"),
        "granted 10 A\nrefused 23\n"
    );
}

#[test]
fn bytes_that_are_no_call() {
    let lines = after(&bus(), b"q\x0a\0w\x0a\0T\0\x01T\x01\0\0\0\0Q\x0a\0T\0\0");
    assert_eq!(
        lines,
        "refused 21\nrefused 21\nrefused 21\nrefused 21\nrefused 21\ngranted 10 bus\ntick 0 0\n"
    );
}

#[test]
fn bytes_left_over() {
    assert_eq!(after(&bus(), b""), "");
    assert_eq!(after(&bus(), b"T"), "refused 22\n");
    assert_eq!(after(&bus(), b"T\0\0xy"), "tick 0 0\nrefused 22\n");
}

/// More than one piece is read and more than one is written, and pieces do not end at the end of a call.
#[test]
fn a_long_list() {
    let calls = b"Q\x0a\0R\x0a\0T\0\0".repeat(20_000);
    let lines = "granted 10 bus\nreleased 10 bus free\ntick 0 0\n".repeat(20_000);
    let input = [&bus()[..], &calls, b"Q"].concat();
    for mode in &MODES[..2] {
        let mut output = Vec::new();
        run(&mut &input[..], &mut output, mode).unwrap();
        assert_eq!(
            String::from_utf8(output).unwrap(),
            format!("plan 2 2 1 2\n{lines}refused 22\n")
        );
    }
}
