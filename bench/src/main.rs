//! The proved code beside the peer: their answers compared, and their times measured in one run.

mod images;
mod plain;
mod proved;
mod same;
mod time;

use bench::{lists, plans};
use compare::plans::Size;
use compare::random::Random;
use peer::image::MAX_IMAGE;
use std::cell::RefCell;
use time::{Pace, Side};

const QUICK: Pace = Pace {
    rounds: 401,
    calls: 500,
};
const MEDIUM: Pace = Pace {
    rounds: 201,
    calls: 10,
};
const SLOW: Pace = Pace {
    rounds: 21,
    calls: 1,
};

fn main() {
    let (full, small) = (plans::full(), plans::small());
    same::damaged_plans(&[&full, &small], 20_000);
    same::questions(2_000);
    same::sheets(2_000);
    same::lists(600, 80);
    same::images(600, 80);
    time::report(
        "reading the full plan",
        QUICK,
        &full,
        proved::read,
        plain::read,
    );
    time::report(
        "reading the small plan",
        QUICK,
        &small,
        proved::read,
        plain::read,
    );
    analysis();
    sheets();
    machine();
    starts();
    on_images();
}

/// All hold times of a plan, and whether it is admitted.
fn analysis() {
    for processors in [8, 2] {
        let busy = plans::busy(processors);
        assert_ne!(proved::hold_at(&busy, 0), 0, "the resource is global");
        time::report(
            &format!("all hold times of 64 tasks on {processors} processors"),
            QUICK,
            &busy,
            |file| proved::hold_at(file, 27),
            |file| plain::hold_at(file, 27),
        );
    }
    for processors in [8, 2] {
        let busy = plans::busy(processors);
        assert_eq!(proved::admission(&busy), 256, "the plan is admitted");
        time::report(
            &format!("admission of 64 tasks on {processors} processors, T near 65,535"),
            SLOW,
            &busy,
            proved::admission,
            plain::admission,
        );
    }
}

/// Whole datasheets, in a lent buffer: of plans whose periods are short, so that what counts is the lines, and of plans whose periods
/// are long, where it is the tolerances.
fn sheets() {
    let buffer = RefCell::new(vec![0; 131_072]);
    let measure = |what: &str, pace, file: &[u8]| {
        time::report(
            what,
            pace,
            file,
            |file| proved::sheet(file, &mut buffer.borrow_mut()),
            |file| plain::sheet(file, &mut buffer.borrow_mut()),
        );
    };
    let full = compare::plans::some(Size::full(64), &mut Random::of(b'D', 0));
    measure("the datasheet of a full plan", MEDIUM, &full);
    measure("the datasheet of the small plan", QUICK, &plans::small());
    for processors in [8, 2] {
        let what = format!("the datasheet of 64 tasks on {processors} processors, T near 65,535");
        measure(&what, SLOW, &plans::busy(processors));
    }
}

/// Of lists of calls.
const LISTS: Pace = Pace {
    rounds: 201,
    calls: 1,
};

/// Lists of calls from a fresh machine on; the requests at the front of each are measured with the rest.
fn machine() {
    let lists = [
        (
            "a tick with 16 held resources",
            plans::long(),
            lists::ticks(640),
        ),
        (
            "a release, and a request behind 63 tasks",
            plans::narrow(),
            lists::turns(320),
        ),
        (
            "a request and a give-up behind 62 tasks, in turn",
            plans::narrow(),
            lists::give_ups(320),
        ),
    ];
    for (what, plan, calls) in lists {
        for (which, other) in [
            ("plain", plain::row as fn(&[u8], &[u8], u8) -> u64),
            ("tuned", plain::tuned_row),
        ] {
            time::measure(
                &format!("{what}, beside the {which} machine"),
                LISTS,
                calls.len() / 3,
                &plan,
                |file| proved::row(file, &calls, 5),
                |file| other(file, &calls, 5),
            );
        }
    }
}

/// The start of an image, of a full plan and of the small one.
fn starts() {
    let lent = RefCell::new([0; MAX_IMAGE]);
    for (what, plan) in [("full", plans::full()), ("small", plans::small())] {
        time::report(
            &format!("the start of an image, the {what} plan"),
            QUICK,
            &plan,
            |file| proved::start(file, lent.borrow_mut().as_mut()),
            |file| plain::start(file, lent.borrow_mut().as_mut()),
        );
    }
}

/// A name, a plan and a list of calls.
type List = (&'static str, Vec<u8>, Vec<u8>);

/// The lists that are made on the image of 64 tasks: with 16 resources, and with one.
fn full_lists() -> [List; 5] {
    let ticks = "a tick with 16 held resources";
    let turns = "a release and a request on 16 held resources, in turn";
    let give_ups = "a give-up and a request on 16 held resources, in turn";
    let deep_turns = "a release, and a request behind 63 tasks";
    let deep_give_ups = "a request and a give-up behind 62 tasks, in turn";
    [
        (ticks, plans::long(), lists::ticks(640)),
        (turns, plans::long(), lists::turns_on_all(320)),
        (give_ups, plans::long(), lists::give_ups_on_all(320)),
        (deep_turns, plans::narrow(), lists::turns(320)),
        (deep_give_ups, plans::narrow(), lists::give_ups(320)),
    ]
}

/// Those on the image of the small plan.
fn small_lists() -> [List; 3] {
    let ticks = "the small plan, a request and three ticks, in turn";
    let turns = "the small plan, a request and a release, in turn";
    let give_ups = "the small plan, a request and a give-up, in turn";
    [
        (ticks, plans::small(), lists::small_ticks(160)),
        (turns, plans::small(), lists::small_turns(320)),
        (give_ups, plans::small(), lists::small_give_ups(320)),
    ]
}

/// Lists of calls one by one on an image, from its start on; beside them the same list by value, in one call.
fn on_images() {
    for (what, plan, calls) in full_lists().into_iter().chain(small_lists()) {
        same::list_on_image(&plan, &calls);
        let row = |functions: images::Functions| {
            let (plan, calls) = (&plan, &calls);
            move |n| time::round(n, |file| functions.row(file, calls, 0), plan)
        };
        let by_value = proved::row(&plan, &calls, 0);
        assert_eq!(images::PROVED.row(&plan, &calls, 0), by_value);
        let sides: [Side; 4] = [
            ("proved by image", &row(images::PROVED)),
            ("plain by image", &row(images::PLAIN)),
            ("tuned by image", &row(images::TUNED)),
            ("proved by value", &|n| {
                time::round(n, |file| proved::row(file, &calls, 0), &plan)
            }),
        ];
        println!("{what}, {} bytes, {}", plan.len(), LISTS.told());
        time::measure_sides(LISTS, calls.len() / 3, &sides);
    }
}
