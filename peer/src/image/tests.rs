use super::*;
use crate::analysis::{budget, hold_time};
use crate::calls::{PLAIN, TUNED};
use crate::machine;
use crate::samples::{bus, figure2, file, made, refused_files, Numbers, LISTING};

/// What lies behind an image.
const BEHIND: [u8; 3] = [7, 170, 255];

fn new_image(file: &[u8]) -> Vec<u8> {
    let mut image = vec![9; length(read(file).unwrap().counts)];
    assert_eq!(start(file, &mut image), 0);
    image
}

/// Makes the same call by both machines, which have to agree.
fn made_on(file: &[u8], image: &mut [u8], wanted: Call) -> u64 {
    let mut other = image.to_vec();
    let word = call(&TUNED, file, image, wanted).unwrap();
    assert_eq!(call(&PLAIN, file, &mut other, wanted), Some(word));
    assert_eq!(image, other, "{wanted:?}");
    word
}

fn wanted(letter: u8, tag: u16, resource: u8) -> Call {
    Call {
        letter,
        tag,
        resource,
    }
}

/// Calls of three bytes each.
fn after(file: &[u8], calls: &[u8]) -> Vec<u8> {
    let mut image = new_image(file);
    for &bytes in calls.as_chunks().0 {
        assert_eq!(made_on(file, &mut image, Call::of(bytes)) % 256, 0);
    }
    image
}

#[test]
fn the_listing_byte_by_byte() {
    const FREE: [u8; 14] = [0, 255, 0, 0, 0, 0, 255, 255, 255, 255, 255, 255, 255, 255];
    const fn held(queued: u8, holder: u8, left: u8, queue: [u8; 2]) -> [u8; 14] {
        let [k, l] = queue;
        [
            queued, holder, left, 0, left, 0, k, l, 255, 255, 255, 255, 255, 255,
        ]
    }
    let by_ticks = [0, 1, 0, 1, 0, 0, 0, 0];
    let expected: [([u8; 8], [u8; 14], [u8; 4]); 8] = [
        ([0; 8], FREE, [255; 4]),
        ([0; 8], held(1, 1, 3, [1, 255]), [255, 255, 0, 0]),
        ([0, 1, 0, 3, 0, 0, 0, 0], held(2, 1, 3, [1, 0]), [0; 4]),
        ([0; 8], held(2, 1, 2, [1, 0]), [0; 4]),
        ([0; 8], held(2, 1, 1, [1, 0]), [0; 4]),
        (by_ticks, held(1, 0, 2, [0, 255]), [0, 0, 255, 255]),
        (
            [16, 0, 0, 0, 0, 0, 0, 0],
            held(1, 0, 2, [0, 255]),
            [0, 0, 255, 255],
        ),
        ([0; 8], FREE, [255; 4]),
    ];
    let mut lent = [&[1; 22][..], &BEHIND].concat();
    let calls = [&b"S\0\0"[..], LISTING].concat();
    for (&bytes, (word, row, tasks)) in calls.as_chunks().0.iter().zip(expected) {
        let found = made_on(&bus(), &mut lent, Call::of(bytes));
        assert_eq!(found.to_le_bytes(), word, "{bytes:?}");
        let image = [&[2, 1, 4, 18][..], &row, &tasks, &BEHIND].concat();
        assert_eq!(lent, image, "{bytes:?}");
    }
}

#[test]
fn words_at_their_widest() {
    let bytes = |answer| word(answer).to_le_bytes();
    let (ahead, limit) = (63, 0x0102_0304);
    let waits = Answer::Waits { ahead, limit };
    assert_eq!(bytes(waits), [0, 1, 63, 4, 3, 2, 1, 0]);
    assert_eq!(bytes(Answer::Next(0x0102)), [0, 1, 2, 1, 0, 0, 0, 0]);
    assert_eq!(bytes(Answer::Next(0)), [0, 1, 0, 0, 0, 0, 0, 0]);
    let (cuts, grants) = (0x8001, 0x0180);
    let ticked = Answer::Ticked { cuts, grants };
    assert_eq!(bytes(ticked), [0, 1, 128, 128, 1, 0, 0, 0]);
    assert_eq!(bytes(Answer::Refused(25)), [25, 0, 0, 0, 0, 0, 0, 0]);
    for none in [Answer::Granted, Answer::Free, Answer::Left] {
        assert_eq!(word(none), 0);
    }
}

#[test]
fn a_release_to_another_and_a_give_up() {
    let image = after(&bus(), b"Q\x14\0Q\x0a\0T\0\0");
    let mut next = image.clone();
    let word = made_on(&bus(), &mut next, wanted(b'R', 20, 0));
    assert_eq!(word.to_le_bytes(), [0, 1, 10, 0, 0, 0, 0, 0]);
    assert_eq!(next[4..12], [1, 0, 2, 0, 2, 0, 0, 255]);
    next = image;
    assert_eq!(made_on(&bus(), &mut next, wanted(b'W', 10, 0)), 0);
    assert_eq!(next, after(&bus(), b"Q\x14\0T\0\0"));
}

/// 64 tasks, eight on each processor and four on each of 16 resources; each has sections of 1,000 ticks on its one resource.
fn widest() -> Vec<u8> {
    let tasks: Vec<_> = (0..64)
        .map(|i| (i / 8, u16::from(i), 1 + i, u16::MAX, u16::MAX))
        .collect();
    let sections: Vec<_> = (0..255).map(|i| (i % 64, i % 16, 1000)).collect();
    file(8, 16, &tasks, &sections)
}

#[test]
fn the_longest_image() {
    let mut image = vec![0; MAX_IMAGE + 1];
    assert_eq!(start(&widest(), &mut image), 0);
    assert_eq!((MAX_IMAGE, &image[..4]), (356, &[64, 16, 4, 228][..]));
    assert_eq!(image[356], 0);
    // Task 56 is the lowest of its processor, and seven sections of 1,000 are above its own.
    assert_eq!(made_on(&widest(), &mut image, wanted(b'Q', 56, 8)), 0);
    assert_eq!(made_on(&widest(), &mut image, wanted(b'Q', 63, 15)), 0);
    let word = made_on(&widest(), &mut image, wanted(b'Q', 24, 8));
    let [low, high] = 24_000u16.to_le_bytes();
    assert_eq!(word.to_le_bytes(), [0, 1, 0, low, high, 0, 0, 0]);
    let [low, high] = 8_000u16.to_le_bytes();
    assert_eq!(image[116..125], [2, 56, low, high, low, high, 7, 3, 255]);
    assert_eq!(image[214..222], [1, 63, 232, 3, 232, 3, 7, 255]);
    assert_eq!(image[228 + 2 * 56..][..2], [8, 0]);
    assert_eq!(image[354..], [15, 0, 0]);
}

const LETTERS: [u8; 5] = *b"SQRWT";

/// Each of these calls gives this number and leaves all that is lent.
fn refused(file: &[u8], lent: &[u8], letters: &[u8], number: u64) {
    for &letter in letters {
        let mut after = lent.to_vec();
        let word = made_on(file, &mut after, wanted(letter, 999, 99));
        assert_eq!((word, &after[..]), (number, lent), "{}", letter as char);
    }
}

#[test]
fn the_plan_then_24_then_25_then_the_calls_own() {
    let image = new_image(&figure2(61));
    let bad = vec![200; image.len()];
    for (number, file) in refused_files() {
        for lent in [&[], &image[1..], &bad, &image] {
            refused(&file, lent, &LETTERS, number.into());
        }
    }
    let file = figure2(61);
    for lent in [&[], &image[..1], &image[..61], &bad[..61]] {
        refused(&file, lent, &LETTERS, 24);
    }
    refused(&file, &bad, b"QRWT", 25);
    refused(&file, &image, b"QRW", 11);
    let mut after = bad;
    assert_eq!(made_on(&file, &mut after, wanted(b'S', 999, 99)), 0);
    assert_eq!(made_on(&file, &mut after, wanted(b'T', 999, 99)), 0);
    assert_eq!(after, image);
}

/// Figure 2 with P2's tasks 11 and 12 and then P1's 2 and 1 in line for R1, and 3 for R2. R1's row begins at 4, R2's at 18, that of the
/// local resource at 32, the task rows at 46.
fn busy() -> Vec<u8> {
    let image = after(&figure2(61), b"Q\x0b\0Q\x0c\0Q\x02\0Q\x01\0Q\x03\x01T\0\0");
    assert_eq!(image[..14], [8, 3, 4, 46, 2, 5, 2, 0, 6, 0, 1, 0, 255, 255]);
    assert_eq!(image[18..26], [1, 2, 9, 0, 9, 0, 0, 255]);
    assert_eq!(image[46..54], [0, 1, 0, 0, 1, 0, 255, 255]);
    assert_eq!(image[54..], [255, 255, 0, 0, 0, 1, 255, 255]);
    image
}

#[test]
fn the_calls_own_in_order() {
    let (file, image) = (figure2(61), busy());
    let expected = [
        (&b"QRW"[..], 6, 3, 11),
        (b"QRW", 256 + 1, 0, 11),
        (b"QRW", 1, 3, 12),
        (b"QRW", 11, 255, 12),
        (b"Q", 1, 1, 13),
        (b"Q", 1, 2, 14),
        (b"Q", 1, 0, 15),
        (b"Q", 11, 1, 15),
        (b"R", 12, 0, 16),
        (b"R", 1, 0, 16),
        (b"R", 11, 1, 16),
        (b"W", 11, 0, 23),
        (b"W", 12, 1, 23),
        (b"W", 13, 0, 23),
        (b"W", 1, 2, 23),
    ];
    for (letters, tag, resource, number) in expected {
        for &letter in letters {
            let mut after = image.clone();
            let word = made_on(&file, &mut after, wanted(letter, tag, resource));
            assert_eq!((word, &after), (number, &image), "{tag} {resource}");
        }
    }
}

/// Each breaks one clause and, but for what it has to touch, leaves the others.
const BROKEN: [(&str, &[(usize, u8)]); 47] = [
    ("N", &[(0, 7)]),
    ("R", &[(1, 2)]),
    ("the offset of the resource rows", &[(2, 5)]),
    ("the offset of the task rows", &[(3, 47)]),
    ("filled behind the queue", &[(12, 2)]),
    ("filled at the end of the queue", &[(17, 0)]),
    ("filled behind the queue by one that is queued", &[(25, 0)]),
    ("free, with a holder", &[(33, 0)]),
    ("free, with a holder there is not", &[(33, 8)]),
    ("free, with hold left", &[(34, 1)]),
    ("free, with 256 of hold left", &[(35, 1)]),
    ("free, with budget left", &[(36, 1)]),
    ("free, with 256 of budget left", &[(37, 1)]),
    ("free, with a processor", &[(38, 0)]),
    ("a place and no resource", &[(53, 0)]),
    ("a resource and no place", &[(52, 0)]),
    ("a gap", &[(47, 2)]),
    ("a gap at the front", &[(49, 2)]),
    ("a repeat", &[(47, 0)]),
    ("a repeat behind the holder", &[(60, 0), (61, 1)]),
    ("a place of 64", &[(47, 64)]),
    ("a place of 255", &[(47, 255)]),
    ("in line for an undeclared resource", &[(54, 0), (55, 2)]),
    (
        "in line for a local resource, not queued",
        &[(54, 2), (55, 0)],
    ),
    (
        "holding a local resource",
        &[
            (54, 2),
            (55, 0),
            (32, 1),
            (33, 4),
            (34, 1),
            (36, 1),
            (38, 0),
        ],
    ),
    ("in line for resource R", &[(50, 3)]),
    ("in line for resource 16", &[(46, 16)]),
    ("in line for resource 254", &[(46, 254)]),
    ("queued without a task", &[(18, 2), (25, 1)]),
    ("in line and not queued", &[(4, 1), (11, 255)]),
    (
        "in line and nobody queued",
        &[(18, 0), (19, 255), (20, 0), (22, 0), (24, 255)],
    ),
    ("queued twice", &[(4, 3), (12, 0)]),
    ("head twice", &[(11, 1)]),
    ("processor P", &[(11, 2)]),
    ("processor 8", &[(11, 8)]),
    ("processor 9, whose low bits are the head's", &[(10, 9)]),
    ("none within the queue", &[(10, 255)]),
    ("too few queued", &[(4, 1)]),
    ("too many queued", &[(4, 3)]),
    ("nine queued", &[(4, 9)]),
    ("255 queued", &[(18, 255)]),
    ("no hold left", &[(6, 0)]),
    ("hold left above the hold time", &[(6, 4)]),
    ("hold left above the hold time by 256", &[(7, 1), (9, 1)]),
    ("hold left above the budget left", &[(8, 1)]),
    ("budget left above the budget", &[(8, 8)]),
    ("budget left above the budget by 256", &[(9, 1)]),
];

/// The number of a held resource is not that of the head's first task.
const HOLDERS: [(&str, &[(usize, u8)]); 8] = [
    ("nobody", &[(5, 255)]),
    ("the head's second", &[(5, 6)]),
    ("an idle one of the head's", &[(5, 7)]),
    ("the first of another processor", &[(5, 1)]),
    ("who holds another resource", &[(5, 2)]),
    ("number N", &[(5, 8)]),
    ("number 69, whose low bits are the holder's", &[(5, 69)]),
    ("the head's second is first", &[(57, 1), (59, 0)]),
];

fn changed(image: &[u8], changes: &[(usize, u8)]) -> Vec<u8> {
    let mut image = image.to_vec();
    for &(at, byte) in changes {
        assert_ne!(image[at], byte, "{changes:?}");
        image[at] = byte;
    }
    image
}

#[test]
fn each_clause_broken_alone() {
    let (file, image) = (figure2(61), busy());
    for (what, changes) in BROKEN.iter().chain(&HOLDERS) {
        let broken = changed(&image, changes);
        assert!(!sound_by_words(&file, &broken), "{what}");
        refused(&file, &broken, b"QRWT", 25);
        let mut started = broken;
        assert_eq!(made_on(&file, &mut started, wanted(b'S', 0, 0)), 0);
        assert_eq!(started, new_image(&file));
    }
}

#[test]
fn changes_that_leave_an_image_sound() {
    let (file, image) = (figure2(61), busy());
    let changes: [&[(usize, u8)]; 7] = [
        &[(6, 3)],
        &[(6, 1)],
        &[(8, 2)],
        &[(8, 7)],
        &[(47, 0), (49, 1)],
        &[(5, 6), (57, 1), (59, 0)],
        &[
            (4, 1),
            (11, 255),
            (46, 255),
            (47, 255),
            (48, 255),
            (49, 255),
        ],
    ];
    for changes in changes {
        let mut image = changed(&image, changes);
        assert!(sound_by_words(&file, &image), "{changes:?}");
        assert_eq!(made_on(&file, &mut image, wanted(b'T', 0, 0)) % 256, 0);
    }
}

#[test]
fn every_change_of_one_byte() {
    let (file, image) = (figure2(61), busy());
    let mut sound = 0;
    for at in 0..image.len() {
        for mask in 1..=255 {
            let mut changed = image.clone();
            changed[at] ^= mask;
            let by_words = sound_by_words(&file, &changed);
            let word = made_on(&file, &mut changed, wanted(b'T', 0, 0));
            assert_eq!(word % 256, if by_words { 0 } else { 25 }, "{at} {mask}");
            sound += usize::from(by_words);
        }
    }
    // Hold left may be 1 to 3 and budget left 2 to 7 on R1, 1 to 9 and 9 to 10 on R2.
    assert_eq!(sound, 2 + 5 + 8 + 1);
}

#[test]
fn a_short_image_and_bytes_behind_one() {
    let (file, image) = (figure2(61), busy());
    for short in 0..image.len() {
        refused(&file, &image[..short], &LETTERS, 24);
    }
    for (letter, tag) in [(b'S', 0), (b'T', 0), (b'Q', 13), (b'R', 11), (b'W', 12)] {
        let mut alone = image.clone();
        let word = made_on(&file, &mut alone, wanted(letter, tag, 0));
        assert_eq!(word % 256, 0);
        for behind in [&BEHIND[..], &[0], &[255; 400]] {
            let mut lent = [&image, behind].concat();
            assert_eq!(made_on(&file, &mut lent, wanted(letter, tag, 0)), word);
            assert_eq!(lent, [&alone, behind].concat());
        }
    }
}

/// A row of an image: the number queued, the holder, hold left and budget left, the queue.
fn row(image: &[u8], q: usize) -> (usize, u8, [u32; 2], &[u8]) {
    let row = &image[4 + 14 * q..18 + 14 * q];
    let left = [2, 4].map(|at| u32::from(row[at]) + 256 * u32::from(row[at + 1]));
    (row[0].into(), row[1], left, &row[6..])
}

/// The tasks in line for `q` of processor `k` with their places, in order of these.
fn queue(plan: &Plan, image: &[u8], q: usize, k: u8) -> Vec<(u8, usize)> {
    let rows = &image[4 + 14 * usize::from(plan.counts.resources)..];
    let of = |i: &usize| usize::from(rows[2 * i]) == q && plan.tasks[*i].processor == k;
    let tasks = (0..tasks(plan).len()).filter(of);
    let mut queue: Vec<_> = tasks.map(|i| (rows[2 * i + 1], i)).collect();
    queue.sort();
    queue
}

/// One resource of an image by the words of the documents.
fn resource_is_sound(file: &[u8], plan: &Plan, image: &[u8], q: usize) -> bool {
    let (queued, holder, [hold_left, budget_left], slots) = row(image, q);
    if queued > slots.len() || slots[queued..].iter().any(|&k| k != 255) {
        return false;
    }
    let queued = &slots[..queued];
    for k in 0..plan.counts.processors {
        let places = queue(plan, image, q, k);
        let times = queued.iter().filter(|&&p| p == k).count();
        let in_order = places.iter().enumerate().all(|(n, p)| n == p.0.into());
        if !in_order || times != usize::from(!places.is_empty()) {
            return false;
        }
    }
    let Some(&head) = queued.first() else {
        return (holder, hold_left, budget_left) == (255, 0, 0);
    };
    if queued.iter().any(|&k| k >= plan.counts.processors) {
        return false;
    }
    let (_, first) = queue(plan, image, q, head)[0];
    let hold = hold_time(file, plan.tasks[first].tag, q as u8).unwrap();
    let most = budget(file, head, q as u8).unwrap();
    usize::from(holder) == first
        && (1..=hold).contains(&hold_left)
        && (hold_left..=most).contains(&budget_left)
}

/// Whether an image that is long enough is sound, by the words of the documents.
fn sound_by_words(file: &[u8], image: &[u8]) -> bool {
    let plan = read(file).unwrap();
    let (n, r) = (plan.counts.tasks, plan.counts.resources);
    let at = 4 + 14 * usize::from(r);
    if image[..4] != [n, r, 4, at as u8] {
        return false;
    }
    let may_use = |(task, row): (&crate::Task, &[u8])| match row {
        [255, place] => *place == 255,
        _ => hold_time(file, task.tag, row[0]).is_ok(),
    };
    tasks(&plan).iter().zip(image[at..].chunks(2)).all(may_use)
        && (0..r.into()).all(|q| resource_is_sound(file, &plan, image, q))
}

/// A call that often does something, on the state by value.
fn some_call(n: &mut Numbers, plan: &Plan, state: &State) -> Call {
    let sections = crate::analysis::sections(plan);
    let any = (plan.tasks[n.below(64)].tag, n.below(17) as u8);
    let (tag, resource) = match n.one_of(sections) {
        Some(s) if !n.one_in(12) => (plan.tasks[usize::from(s.task)].tag, s.resource),
        _ => any,
    };
    let holders = holders(plan, state).map(usize::from);
    match n.below(12) {
        0..3 => {
            let waits = |i: &usize| state.tasks[*i] != Standing::NONE && !holders.contains(i);
            let rows: Vec<_> = (0..tasks(plan).len()).filter(waits).collect();
            match n.one_of(&rows) {
                Some(i) => wanted(b'W', plan.tasks[i].tag, state.tasks[i].resource),
                None => wanted(b'W', tag, resource),
            }
        }
        3..5 => {
            let q = n.below(plan.counts.resources.into());
            let tag = tasks(plan).get(holders[q]).map_or(tag, |task| task.tag);
            wanted(b'R', tag, q as u8)
        }
        5..8 => wanted(b'T', 0, 0),
        _ => wanted(b'Q', tag, resource),
    }
}

/// The plan, its file, the image after a call, and the answer.
type Each<'a> = dyn FnMut(&mut Numbers, &Plan, &[u8], &[u8], Answer) + 'a;

/// Makes lists of calls by image beside the same by value on made plans, and shows what came of each call.
fn lists(n: &mut Numbers, each: &mut Each) {
    for round in 0..100 {
        let most = [[4, 12, 4, 40], [8, 64, 16, 255]][usize::from(round % 5 == 0)];
        let (plan, file) = made(n, most, false);
        let behind: Vec<u8> = (0..n.below(9)).map(|_| n.below(256) as u8).collect();
        let mut state = State::FRESH;
        let mut lent = [new_image(&file), behind.clone()].concat();
        for _ in 0..150 {
            let call = some_call(n, &plan, &state);
            let (answer, next) = TUNED.make(&file, &state, call).unwrap();
            assert_eq!(made_on(&file, &mut lent, call), word(answer), "{call:?}");
            let mut stored = vec![3; length(plan.counts)];
            store(&plan, &next, &mut stored).unwrap();
            assert_eq!(lent, [stored, behind.clone()].concat(), "{call:?}");
            state = next;
            each(n, &plan, &file, &lent[..length(plan.counts)], answer);
        }
    }
}

#[test]
fn lists_by_image_agree_with_those_by_value() {
    let mut met = [0; 8];
    lists(&mut Numbers(11), &mut |_, _, file, image, answer| {
        assert!(sound_by_words(file, image));
        met[match answer {
            Answer::Granted => 0,
            Answer::Waits { .. } => 1,
            Answer::Next(_) => 2,
            Answer::Free => 3,
            Answer::Left => 4,
            Answer::Ticked { cuts: 0, .. } => 5,
            Answer::Ticked { .. } => 6,
            Answer::Refused(_) => 7,
        }] += 1;
    });
    assert!(met.iter().all(|&count| count > 200), "{met:?}");
}

/// The state in a sound image, without a look at the code that is tested.
fn shown(plan: &Plan, image: &[u8]) -> State {
    let mut state = State::FRESH;
    for q in 0..plan.counts.resources.into() {
        let (queued, _, [hold_left, budget_left], queue) = row(image, q);
        state.lines[q] = Line {
            queued: queued as u8,
            queue: queue.try_into().unwrap(),
            hold_left: hold_left as u16,
            budget_left: budget_left as u16,
        };
    }
    let rows = &image[4 + 14 * usize::from(plan.counts.resources)..];
    for (to, row) in state.tasks.iter_mut().zip(rows.chunks(2)) {
        (to.resource, to.place) = (row[0], row[1]);
    }
    state
}

/// A small change: of a byte, of one to that of another row, or two of them exchanged.
fn damage(n: &mut Numbers, image: &mut [u8], tasks_at: usize) {
    let (at, small) = (n.below(image.len()), [0, 1, 2, 8, 16, 254, 255][n.below(7)]);
    let width = if at < tasks_at { 14 } else { 2 };
    let other = (at + width * n.below(4)).min(image.len() - 1);
    match n.below(6) {
        0 => image[at] = small,
        1 => image[at] = image[at].wrapping_add(1),
        2 => image[at] = image[at].wrapping_sub(1),
        3 => image[at] = image[other],
        4 => image.swap(at, other),
        _ => image[at] = n.below(256) as u8,
    }
}

#[test]
fn damaged_images_are_sound_by_the_words_alone() {
    let mut counts = [0; 2];
    lists(&mut Numbers(5), &mut |n, plan, file, image, _| {
        let mut image = image.to_vec();
        for _ in 0..1 + n.below(2) {
            damage(n, &mut image, tasks_at(plan.counts));
        }
        if !sound_by_words(file, &image) {
            refused(file, &image, b"QRWT", 25);
            counts[0] += 1;
            return;
        }
        counts[1] += 1;
        let state = shown(plan, &image);
        assert!(machine::sound(plan, &state));
        let call = some_call(n, plan, &state);
        let (answer, next) = PLAIN.make(file, &state, call).unwrap();
        let mut stored = image.clone();
        store(plan, &next, &mut stored).unwrap();
        assert_eq!(made_on(file, &mut image, call), word(answer));
        assert_eq!(image, stored);
    });
    assert!(counts.iter().all(|&count| count > 1000), "{counts:?}");
}

#[test]
fn another_letter_is_no_call() {
    let mut image = busy();
    for letter in [0, b's', b'q', b'X', 255] {
        let found = call(&TUNED, &figure2(61), &mut image, wanted(letter, 11, 0));
        assert_eq!(found, None);
    }
    assert_eq!(image, busy());
}
