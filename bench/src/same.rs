//! Both sides on plans that are damaged, and on plans that are not: each must give the same number.

use crate::images::{PLAIN, PROVED, TUNED as TUNED_ON_IMAGE};
use crate::{plain, proved};
use bench::{lists, plans};
use compare::damage::damaged;
use compare::random::Random;
use peer::calls::{Call, TUNED};
use peer::image::{self, MAX_IMAGE};
use peer::machine::State;

const START: u64 = 0x9e37_79b9_7f4a_7c15;

/// Reading `copies` damaged copies; prints how often each refusal came up.
pub fn damaged_plans(plans: &[&[u8]], copies: usize) {
    let mut random = Random(START);
    let mut met = [0; 256];
    for i in 0..copies {
        let file = damaged(plans[i % plans.len()], &mut random);
        let (one, other) = (proved::read(&file), plain::read(&file));
        assert_eq!(one, other, "copy {i}: {file:?}");
        assert_eq!(
            proved::hold_at(&file, 0) % 256,
            one % 256,
            "copy {i}: {file:?}"
        );
        met[(one % 256) as usize] += 1;
    }
    println!("{copies} damaged copies: the same number from both for each");
    let numbers: Vec<String> = (0..10).map(|k| format!("{k}: {}", met[k])).collect();
    println!("  refusals (0 for none)  {}", numbers.join("  "));
}

/// All hold times, and admission, of `count` plans.
pub fn questions(count: usize) {
    let mut random = Random(START);
    let (mut held, mut admitted) = (0, 0);
    for i in 0..count {
        let file = plans::some(&mut random);
        for x in 0..1024 {
            let (one, other) = (proved::hold_at(&file, x), plain::hold_at(&file, x));
            assert_eq!(one, other, "plan {i}, entry {x}: {file:?}");
            held += usize::from(one != 0);
        }
        let (one, other) = (proved::admission(&file), plain::admission(&file));
        assert_eq!(one, other, "plan {i}: {file:?}");
        admitted += usize::from(one == 256);
    }
    println!("{count} plans: the same {held} hold times and the same admission from both, {admitted} admitted");
}

/// The datasheets of `count` plans.
pub fn sheets(count: usize) {
    let mut random = Random(START);
    let (mut one, mut other) = (vec![0; 131_072], vec![0; 131_072]);
    let mut bytes = 0;
    for i in 0..count {
        let file = plans::some(&mut random);
        let length = proved::sheet(&file, &mut one);
        assert_eq!(
            length,
            plain::sheet(&file, &mut other),
            "plan {i}: {file:?}"
        );
        assert!(one == other, "plan {i}: {file:?}");
        bytes += length / 256;
    }
    println!("{count} plans: the same datasheet from both, {bytes} bytes in all");
}

/// `count` lists of calls on as many plans: the answer to each call, and all of the state after each list.
pub fn lists(count: usize, length: usize) {
    let mut random = Random(START);
    let mut met = [0; 7];
    for i in 0..count {
        let file = plans::some(&mut random);
        let plan = peer::read(&file).expect("the plan keeps the rules");
        let (mut calls, mut state) = (Vec::new(), peer::machine::start(&file).1);
        for _ in 0..length {
            let call = lists::some(&plan, &state, &mut random);
            let one = proved::answer(&file, &calls, call);
            match TUNED.make(&file, &state, Call::of(call)) {
                Some((answer, next)) => {
                    assert_eq!(
                        one,
                        plain::answer_number(&answer),
                        "list {i}: {calls:?} {call:?}"
                    );
                    met[(one / 256 % 256) as usize] += 1;
                    state = next;
                }
                None => assert_eq!(one, 0, "list {i}: {calls:?} {call:?}"),
            }
            calls.extend(call);
        }
        for x in 0..128 {
            let (one, other) = (proved::row(&file, &calls, x), plain::row_of(&state, x));
            assert_eq!(one, other, "list {i}, part {x}: {file:?} {calls:?}");
        }
    }
    println!(
        "{count} lists of {length} calls: the same answers and the same last states from both"
    );
    let [refused, granted, waits, next, free, ticks, left] = met;
    println!("  {granted} granted, {waits} waits, {next} to another, {free} free, {left} left, {ticks} ticks, {refused} refused");
}

/// The word of a call on an image, if it is one: each side gives the same, and leaves the same in all that is lent.
fn on_image(file: &[u8], lent: &mut [u8], call: [u8; 3]) -> Option<u64> {
    let before = lent.to_vec();
    let word = PROVED.call(file, lent, call);
    for functions in [TUNED_ON_IMAGE, PLAIN] {
        let mut copy = before.clone();
        let other = functions.call(file, &mut copy, call);
        assert_eq!(word, other, "{call:?} on {before:?}: {file:?}");
        assert!(lent == copy, "{call:?} on {before:?}: {file:?}");
    }
    word
}

/// The same call on a copy with one byte changed to any, which is most often refused.
fn on_a_changed_image(file: &[u8], lent: &[u8], call: [u8; 3], random: &mut Random) -> Option<u64> {
    let mut copy = lent.to_vec();
    copy[random.below(lent.len())] = random.byte();
    on_image(file, &mut copy, call)
}

/// A start or a call by value: its word, and the next state.
fn by_value(file: &[u8], state: &State, call: [u8; 3]) -> Option<(u64, State)> {
    match call[0] {
        b'S' => Some((0, State::FRESH)),
        _ => {
            let (answer, next) = TUNED.make(file, state, Call::of(call))?;
            Some((image::word(answer), next))
        }
    }
}

/// `count` lists by image on as many plans, with some bytes behind: each word and all bytes, and the same word as by value. Each call is
/// made on a changed copy too.
pub fn images(count: usize, length: usize) {
    let mut random = Random(START);
    let (mut met, mut not_sound) = ([0; 2], 0);
    for i in 0..count {
        let file = plans::some(&mut random);
        let plan = peer::read(&file).expect("the plan keeps the rules");
        let behind = random.below(9);
        let mut lent = random.bytes(image::length(plan.counts) + behind);
        let mut state = State::FRESH;
        assert_eq!(on_image(&file, &mut lent, [b'S', 0, 0]), Some(0));
        for _ in 0..length {
            let call = lists::some(&plan, &state, &mut random);
            let changed = on_a_changed_image(&file, &lent, call, &mut random);
            not_sound += usize::from(changed == Some(image::NOT_SOUND.into()));
            let (word, made) = (
                on_image(&file, &mut lent, call),
                by_value(&file, &state, call),
            );
            assert_eq!(word, made.map(|(word, _)| word), "list {i}: {call:?}");
            if let Some((word, next)) = made {
                met[usize::from(word % 256 != 0)] += 1;
                state = next;
            }
        }
    }
    let [accepted, refused] = met;
    println!("{count} lists of {length} calls on an image: the same words and the same bytes from all sides");
    println!("  {accepted} accepted, {refused} refused; {not_sound} refused 25 on a copy with a byte changed");
}

/// A list that is measured: the same from each side, and no call of it is refused.
pub fn list_on_image(file: &[u8], calls: &[u8]) {
    let mut lent = [0; MAX_IMAGE];
    let starts = [[b'S', 0, 0]];
    for &call in starts.iter().chain(calls.as_chunks().0) {
        let word = on_image(file, &mut lent, call);
        assert_eq!(word.map(|word| word % 256), Some(0), "{call:?}");
    }
}
