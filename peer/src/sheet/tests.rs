use super::*;
use crate::samples::{bus, figure2, file, in_pieces, made, Numbers};
use crate::{analysis, name};

const BUS: &str = "\
plan 2 2 1 2
resource bus global
budget 0 bus 2 3
budget 1 bus 3 2
hold 10 bus 2 0 3
hold 20 bus 3 0 2
requirement 10 0 0 45 45 3 met
requirement 20 0 0 45 45 2 met
admitted yes
";

/// What is printed, which is the same for all sizes of pieces.
fn printed(input: &[u8]) -> String {
    let by = |size| in_pieces(input, size, |input, output| run(input, output));
    let whole = by(usize::MAX);
    for size in [1, 7, 64] {
        assert_eq!(by(size), whole, "pieces of {size}");
    }
    whole
}

#[test]
fn the_listings_plan() {
    assert_eq!(printed(&bus()), BUS);
}

#[test]
fn bytes_behind_the_plan_are_ignored() {
    assert_eq!(printed(&[&bus()[..], b"Q\x14\0"].concat()), BUS);
    assert_eq!(printed(&[bus(), bus()].concat()), BUS);
    assert_eq!(printed(&[bus(), vec![0; 200_000]].concat()), BUS);
}

#[test]
fn a_refused_plan_is_one_line() {
    let changed = |change: fn(&mut Vec<u8>)| {
        let mut file = bus();
        change(&mut file);
        printed(&file)
    };
    assert_eq!(changed(Vec::clear), "refused 1\n");
    assert_eq!(changed(|f| f.truncate(15)), "refused 1\n");
    assert_eq!(changed(|f| f.truncate(46)), "refused 1\n");
    assert_eq!(changed(|f| f[14] = 15), "refused 1\n");
    assert_eq!(changed(|f| f[14] = 46), "refused 7\n");
    assert_eq!(changed(|f| f[0] = 2), "refused 2\n");
    assert_eq!(changed(|f| f[2] = 3), "refused 4\n");
    assert_eq!(changed(|f| f[25] = 10), "refused 6\n");
    assert_eq!(changed(|f| f[38] = 6), "refused 9\n");
}

/// The paper's example with C and T of C6. C1 and C2 give the hold times and budgets; on P1 tags 1, 2 and 4 share resource A
/// with hold times 2, 3 and 10 and a wait time of 7, and on P2 all three with 3, 4 and 7 and one of 10.
#[test]
fn the_papers_example() {
    let expected = "\
plan 2 8 3 12
resource A global
resource B global
resource C local
budget 0 A 10 7
budget 0 B 10 4
budget 1 A 7 10
budget 1 B 4 10
hold 1 A 2 2 34
hold 2 A 3 2 33
hold 3 B 10 0 4
hold 4 A 10 2 26
hold 11 A 3 2 41
hold 11 B 2 1 24
hold 12 A 4 2 40
hold 12 B 4 1 22
hold 13 A 7 2 37
requirement 1 4 13 90 73 41 met
requirement 2 4 10 80 66 40 met
requirement 3 4 5 70 61 4 met
requirement 4 4 0 60 56 19 met
requirement 11 0 8 44 36 95 unmet
requirement 12 0 4 44 40 72 unmet
requirement 13 0 0 68 68 37 met
admitted no
";
    assert_eq!(printed(&figure2(61)), expected);
}

/// C7: C = T = 5, no higher task, one lower task with one global section of 4. Processor 2 has no task, and B is unused.
#[test]
fn a_slack_below_zero() {
    let tasks = [(0, 1, 2, 5, 5), (0, 2, 1, 100, 10), (1, 3, 1, 100, 10)];
    let sections = [(0, 0, 1), (1, 0, 4), (2, 0, 1)];
    let expected = "\
plan 3 3 2 3
resource A global
resource B local
budget 0 A 4 1
budget 1 A 1 4
hold 1 A 1 1 6
hold 2 A 4 1 3
hold 3 A 1 0 4
requirement 1 0 4 0 -4 7 unmet
requirement 2 0 0 -10 -10 3 unmet
requirement 3 0 0 90 90 4 met
admitted no
";
    assert_eq!(printed(&file(3, 2, &tasks, &sections)), expected);
}

#[test]
fn nothing_global_is_admitted() {
    let local = file(2, 2, &[(1, 7, 1, 9, 9)], &[(0, 1, 9)]);
    let expected = "plan 2 1 2 1\nresource A local\nresource B local\nadmitted yes\n";
    assert_eq!(printed(&local), expected);
    let bare = file(1, 1, &[(0, 0, 1, 1, 1)], &[]);
    assert_eq!(
        printed(&bare),
        "plan 1 1 1 0\nresource A local\nadmitted yes\n"
    );
}

/// The same facts by a question for each, in the order of rows.
fn by_questions(plan: &Plan, file: &[u8]) -> String {
    let c = plan.counts;
    let mut sheet = format!(
        "plan {} {} {} {}\n",
        c.processors, c.tasks, c.resources, c.sections
    );
    let name = |q| String::from_utf8_lossy(name(file, q).unwrap()).into_owned();
    let tasks = &plan.tasks[..c.tasks.into()];
    let (mut budgets, mut holds, mut requirements) = (String::new(), String::new(), String::new());
    for q in 0..c.resources {
        let used = (0..c.processors).filter(|&k| analysis::budget(file, k, q) != Ok(0));
        let kind = ["local", "global"][usize::from(used.count() > 0)];
        sheet += &format!("resource {} {kind}\n", name(q));
    }
    for (k, q) in (0..c.processors).flat_map(|k| (0..c.resources).map(move |q| (k, q))) {
        let [budget, wait] =
            [analysis::budget, analysis::wait_time].map(|f| f(file, k, q).unwrap());
        if budget != 0 {
            budgets += &format!("budget {k} {} {budget} {wait}\n", name(q));
        }
    }
    for t in tasks {
        for q in 0..c.resources {
            let Ok(hold) = analysis::hold_time(file, t.tag, q) else {
                continue;
            };
            let on_k = tasks.iter().filter(|u| u.processor == t.processor);
            let users = on_k.filter(|u| analysis::hold_time(file, u.tag, q).is_ok());
            let (fellows, longest) = (users.count() - 1, analysis::longest_wait(file, t.tag, q));
            holds += &format!(
                "hold {} {} {hold} {fellows} {}\n",
                t.tag,
                name(q),
                longest.unwrap()
            );
        }
        if let Ok(r) = analysis::requirement(file, t.tag) {
            let met = if r.met { "met" } else { "unmet" };
            requirements += &format!(
                "requirement {} {} {} {} {} {} {met}\n",
                t.tag, r.blocking1, r.blocking2, r.tolerance, r.slack, r.side
            );
        }
    }
    let admitted = ["no", "yes"][usize::from(analysis::admission(file).unwrap())];
    sheet + &budgets + &holds + &requirements + &format!("admitted {admitted}\n")
}

#[test]
fn made_plans_agree_with_the_questions() {
    let mut n = Numbers(7);
    for round in 0..300 {
        let (plan, file) = made(&mut n, [4, 10, 5, 40], round % 2 == 0);
        assert_eq!(printed(&file), by_questions(&plan, &file));
    }
    for round in 0..3 {
        let (plan, file) = made(&mut n, [8, 64, 16, 255], round % 2 == 0);
        assert_eq!(printed(&file), by_questions(&plan, &file));
    }
}

/// Long figures of a plan, and the longest that there are.
#[test]
fn long_figures_are_told() {
    let mut tasks: Vec<_> = (0..31)
        .map(|i| (0, i, 255 - i as u8, 65535, 65535))
        .collect();
    tasks.extend((31..64).map(|i| (1, i, i as u8, 65535, 65535)));
    let mut sections: Vec<_> = (0..64).flat_map(|i| [(i, 0, 1000), (i, 1, 1000)]).collect();
    sections.extend([(0, 0, 300); 63]);
    let file = file(2, 2, &tasks, &sections);
    let sheet = printed(&file);
    // 64 sections and one; 30 others with hold times of 2,000 to 31,000, so 32 budgets of 31,000 and 33 waits of 33,000.
    assert!(sheet.contains("\nrequirement 0 0 60000 0 -60000 102960000 unmet\n"));
    // 30 others with hold times of 1,000 to 30,000, and 31 waits.
    assert!(sheet.contains("\nhold 30 A 31000 30 1488000\n"));
    assert!(sheet.len() <= ROOM);
    let mut lines = Lines::default();
    lines.long(b"", u64::MAX);
    lines.signed(i64::MIN);
    lines.signed(-10);
    lines.signed(0);
    assert_eq!(lines.0, b"18446744073709551615 -9223372036854775808 -10 0");
}

#[test]
fn a_lent_buffer_has_to_be_as_long_as_the_sheet() {
    let mut buffer = [170; 300];
    assert_eq!(write(&bus(), &mut buffer), Ok(BUS.len()));
    assert_eq!(buffer[..BUS.len()], *BUS.as_bytes());
    assert!(buffer[BUS.len()..].iter().all(|&b| b == 170));
    let mut buffer = [170; BUS.len()];
    let short = write(&bus(), &mut buffer[..BUS.len() - 1]);
    assert_eq!(short, Err(Refusal::BufferTooShort));
    assert_eq!(buffer, [170; BUS.len()]);
    assert_eq!(write(&bus(), &mut buffer), Ok(BUS.len()));
}

#[test]
fn a_refused_plan_has_its_number_before_any_room_is_looked_at() {
    let mut edition = bus();
    edition[0] = 2;
    for room in [0, 9, 10, 300] {
        let mut buffer = [170; 300];
        let lent = &mut buffer[..room];
        assert_eq!(write(&bus()[1..], lent), Err(Refusal::Length));
        assert_eq!(write(&edition, lent), Err(Refusal::Edition));
        assert_eq!(buffer, [170; 300]);
    }
}
