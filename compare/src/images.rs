//! Made cases on images: of states that calls have led to, good or damaged, and bytes that are no image at all.

use crate::given::after_length;
use compare::damage::maybe_broken;
use compare::lists::{Habits, Maker};
use compare::plans::{self, Size};
use compare::random::Random;
use peer::image::{self, MAX_IMAGE};

const HEADER: usize = 4;
const RESOURCE_ROW: usize = 14;
const TASK_ROW: usize = 2;
/// The most bytes behind an image.
const BEHIND: usize = 40;

/// Of the last call: all kinds about as often, and many that are refused.
const LAST: Habits = Habits {
    requests: 3,
    releases: 3,
    give_ups: 3,
    ticks: 3,
    wrong: 6,
    odd: 0,
    run: 1,
};

/// A plan, the image of a state that calls have led to, and a call that goes on from there.
struct Led {
    file: Vec<u8>,
    image: Vec<u8>,
    call: [u8; 3],
}

fn led(random: &mut Random) -> Led {
    let size = match random.below(16) {
        0 => Size::deep(random),
        _ => Size::some(random),
    };
    let file = plans::some(size, random);
    let mut maker = Maker::new(&file, Habits::some(random));
    maker.list(random.below(120), random);
    let mut last = Maker::new(&file, LAST);
    last.state = maker.state;
    let plan = peer::read(&file).expect("the plan keeps the rules");
    let mut image = vec![0; image::length(plan.counts)];
    image::store(&plan, &maker.state, &mut image).expect("it is long enough");
    let call = last.next(random);
    Led { file, image, call }
}

/// Where the parts of a good image are.
struct Rows {
    resources: usize,
    tasks: usize,
}

impl Rows {
    fn of(image: &[u8]) -> Rows {
        Rows {
            resources: image[1].into(),
            tasks: image[0].into(),
        }
    }

    /// The row of a resource; mostly of one that is held, where there is one.
    fn resource(&self, image: &[u8], random: &mut Random) -> usize {
        let start = random.below(self.resources);
        let rows = start..start + self.resources;
        let mut at = rows.map(|q| HEADER + RESOURCE_ROW * (q % self.resources));
        let any = HEADER + RESOURCE_ROW * start;
        match random.below(4) {
            0 => any,
            _ => at.find(|&at| image[at] > 0).unwrap_or(any),
        }
    }

    /// The row of a task; every other time of one in line, where there is one.
    fn task(&self, image: &[u8], random: &mut Random) -> usize {
        let start = random.below(self.tasks);
        let front = HEADER + RESOURCE_ROW * self.resources;
        let rows = start..start + self.tasks;
        let mut at = rows.map(|i| front + TASK_ROW * (i % self.tasks));
        let any = front + TASK_ROW * start;
        match random.below(2) {
            0 => any,
            _ => at.find(|&at| image[at] < u8::MAX).unwrap_or(any),
        }
    }

    /// A byte of any part, and how far it is to the same one of the next row.
    fn byte(&self, image: &[u8], random: &mut Random) -> (usize, usize) {
        let row = self.resource(image, random);
        let within = match random.below(8) {
            0 => return (random.below(HEADER), 1),
            1 => 0,
            2 => 1,
            3 => random.within(2, 3),
            4 => random.within(4, 5),
            // The queue: within it or just behind, or anywhere.
            5 if random.once_in(2) => 6 + random.below(usize::from(image[row]) + 1).min(7),
            5 => random.within(6, 13),
            _ => {
                let row = self.task(image, random);
                return (row + random.below(TASK_ROW), TASK_ROW);
            }
        };
        (row + within, RESOURCE_ROW)
    }
}

/// Changes a byte: to a small number, by one, to any, to what fills, or to that of a row further on.
fn change_byte(image: &mut [u8], rows: &Rows, random: &mut Random) {
    let (at, width) = rows.byte(image, random);
    image[at] = match random.below(7) {
        0 => random.below(9) as u8,
        1..=2 => image[at].wrapping_add(1),
        3 => image[at].wrapping_sub(1),
        4 => random.byte(),
        5 => u8::MAX,
        _ => image[(at + width * random.within(1, 4)) % image.len()],
    };
}

/// Exchanges two task rows or their places, two processors of a queue, or two resource rows; or makes a task idle, a resource free, or
/// hold left another number up to budget left, or one more. What comes of it is sound now and then.
fn rearrange(image: &mut [u8], rows: &Rows, random: &mut Random) {
    let (one, other) = (rows.task(image, random), rows.task(image, random));
    let row = rows.resource(image, random);
    match random.below(9) {
        0 => (0..TASK_ROW).for_each(|x| image.swap(one + x, other + x)),
        1..=2 => image.swap(one + 1, other + 1),
        3 => {
            let queued = usize::from(image[row]).clamp(1, 8);
            image.swap(row + 6 + random.below(queued), row + 6);
        }
        4 => {
            let other = rows.resource(image, random);
            (0..RESOURCE_ROW).for_each(|x| image.swap(row + x, other + x));
        }
        5 => image[one..one + TASK_ROW].fill(u8::MAX),
        6..=7 => {
            let budget_left = u16::from_le_bytes([image[row + 4], image[row + 5]]);
            let hold_left = random.within(0, usize::from(budget_left) + 1) as u16;
            image[row + 2..row + 4].copy_from_slice(&hold_left.to_le_bytes());
        }
        _ => {
            image[row..row + RESOURCE_ROW].fill(u8::MAX);
            image[row] = 0;
            image[row + 2..row + 6].fill(0);
        }
    }
}

/// A good image with one change, or with two.
fn damaged(good: &[u8], random: &mut Random) -> Vec<u8> {
    let (mut image, rows) = (good.to_vec(), Rows::of(good));
    for _ in 0..[1, 1, 1, 2][random.below(4)] {
        match random.below(4) {
            0 => rearrange(&mut image, &rows, random),
            _ => change_byte(&mut image, &rows, random),
        }
    }
    image
}

/// What is no image of the plan: too short, empty, that of another plan, or bytes that look random, behind the right header or not.
fn other(good: &[u8], random: &mut Random) -> Vec<u8> {
    match random.below(7) {
        0..=1 => good[..good.len() - 1].to_vec(),
        2 => good[..random.below(good.len())].to_vec(),
        3 => vec![],
        4 => led(random).image,
        5 => {
            let rest = random.bytes(good.len() - HEADER);
            [&good[..HEADER], &rest].concat()
        }
        _ => {
            let count = random.below(MAX_IMAGE + BEHIND);
            random.bytes(count)
        }
    }
}

/// What is lent for a good image: itself or a damaged one, now and then with bytes behind; or what is none.
fn lent(good: &[u8], random: &mut Random) -> Vec<u8> {
    let mut lent = match random.below(12) {
        0..=4 => good.to_vec(),
        5..=9 => damaged(good, random),
        _ => return other(good, random),
    };
    if random.once_in(4) {
        let count = random.within(1, BEHIND);
        lent.extend(random.bytes(count));
    }
    lent
}

/// A call on an image. A start and a tick have neither tag nor resource.
pub fn calling(random: &mut Random) -> Vec<u8> {
    let Led { file, image, call } = led(random);
    let lent = lent(&image, random);
    let high = u8::from(random.once_in(30));
    let call = match call {
        _ if random.once_in(8) => [b'S', 0, 0, 0],
        [b'T', ..] => [b'T', 0, 0, 0],
        [letter, tag, resource] => [letter, tag, high, resource],
    };
    let file = maybe_broken(file, 16, random);
    after_length(&file, &after_length(&lent, &call))
}

/// An image, mostly a good one, of which each byte is changed in turn.
pub fn changing(random: &mut Random) -> Vec<u8> {
    let Led { file, image, .. } = led(random);
    let lent = match random.below(4) {
        0 => lent(&image, random),
        _ => image,
    };
    let mask = match random.below(4) {
        0 => 1,
        1 => 1 << random.below(8),
        2 => u8::MAX,
        _ => random.byte(),
    };
    let file = maybe_broken(file, 30, random);
    after_length(&file, &after_length(&lent, &[mask]))
}

#[cfg(test)]
mod tests {
    use super::*;
    use crate::given::{case, record};
    use crate::met::Images;
    use peer::calls::{PLAIN, TUNED};

    /// The lines of cases of a kind, by both machines.
    fn lines(kind: u8, count: usize) -> Images {
        let mut met = Images::default();
        for number in 0..count {
            let case = case(kind, number);
            let record = record(kind, number, &case);
            let line = peer::cases::line(&record[4..], &TUNED).unwrap();
            let other = peer::cases::line(&record[4..], &PLAIN);
            assert_eq!(other.as_ref(), Some(&line), "{number}");
            let (_, answer) = line.split_once(": ").unwrap();
            met.put(&case, answer);
        }
        met
    }

    #[test]
    fn calls_on_images_meet_each_answer() {
        let met = lines(b'I', 8_000);
        assert!(met.accepted.iter().all(|&n| n >= 100), "{met:?}");
        let own = [11, 12, 13, 14, 15, 16, 23, 24, 25];
        assert!(own.iter().all(|&k| met.refused[k] >= 10), "{met:?}");
        assert!((1..10).all(|k| met.refused[k] > 0), "{met:?}");
    }

    #[test]
    fn images_with_each_byte_changed_meet_each_answer() {
        let met = lines(b'F', 300);
        assert!(met.changed.iter().all(|&n| n >= 500), "{met:?}");
    }

    /// Which byte of the header, of a resource row or of a task row this is.
    fn part(rows: &Rows, at: usize) -> usize {
        match at.checked_sub(HEADER) {
            None => at,
            Some(x) if x < RESOURCE_ROW * rows.resources => HEADER + x % RESOURCE_ROW,
            Some(x) => HEADER + RESOURCE_ROW + x % TASK_ROW,
        }
    }

    #[test]
    fn damage_reaches_each_part() {
        let mut met = [0; HEADER + RESOURCE_ROW + TASK_ROW];
        let mut sound = 0;
        for number in 0..10_000 {
            let mut random = Random::of(b'B', number);
            let Led { file, image, .. } = led(&mut random);
            let (mut damaged, rows) = (damaged(&image, &mut random), Rows::of(&image));
            let differ = |at: &usize| damaged[*at] != image[*at];
            for at in (0..image.len()).filter(differ) {
                met[part(&rows, at)] += 1;
            }
            let same = damaged == image;
            let word = image::tick(&TUNED, &file, &mut damaged);
            sound += usize::from(!same && word.is_multiple_of(256));
        }
        assert!(met.iter().all(|&n| n >= 50), "{met:?}");
        assert!((300..5_000).contains(&sound), "{sound}");
    }
}
