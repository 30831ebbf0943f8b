//! What came up among the answers, so that one can see what a comparison was made of.

#[derive(Clone, Debug)]
pub struct Met {
    granted: usize,
    waits: usize,
    passed_on: usize,
    freed: usize,
    left: usize,
    ticks: usize,
    /// Ticks that end a hold.
    cuts: usize,
    refused: [usize; 256],
}

impl Default for Met {
    fn default() -> Self {
        Met {
            granted: 0,
            waits: 0,
            passed_on: 0,
            freed: 0,
            left: 0,
            ticks: 0,
            cuts: 0,
            refused: [0; 256],
        }
    }
}

impl Met {
    /// An answer of either program: a release is "to" or "free" in one, and a line that ends so in the other.
    pub fn put(&mut self, answer: &str) {
        let mut words = answer.split(' ');
        match (words.next(), words.next()) {
            (Some("granted"), _) => self.granted += 1,
            (Some("waits"), _) => self.waits += 1,
            (Some("free"), _) => self.freed += 1,
            (Some("to"), _) => self.passed_on += 1,
            (Some("released"), _) if answer.ends_with(" free") => self.freed += 1,
            (Some("released"), _) => self.passed_on += 1,
            (Some("left"), _) => self.left += 1,
            (Some("tick"), cuts) => {
                self.ticks += 1;
                self.cuts += usize::from(cuts != Some("0"));
            }
            (Some("refused"), Some(number)) => {
                let number: u8 = number.parse().unwrap_or(0);
                self.refused[usize::from(number)] += 1;
            }
            _ => (),
        }
    }

    pub fn add(&mut self, other: &Met) {
        self.granted += other.granted;
        self.waits += other.waits;
        self.passed_on += other.passed_on;
        self.freed += other.freed;
        self.left += other.left;
        self.ticks += other.ticks;
        self.cuts += other.cuts;
        for (mine, other) in self.refused.iter_mut().zip(&other.refused) {
            *mine += other;
        }
    }

    pub fn tell(&self) {
        println!(
            "  {} granted, {} waits, {} passed on, {} freed, {} left, {} ticks, {} of them with a cut.",
            self.granted, self.waits, self.passed_on, self.freed, self.left, self.ticks, self.cuts
        );
        self.tell_refused();
    }

    pub fn tell_refused(&self) {
        println!("  Refused by number: {}.", by_number(&self.refused));
    }
}

/// The numbers that came up, each with how often.
fn by_number(refused: &[usize; 256]) -> String {
    let met = refused.iter().enumerate().filter(|(_, &count)| count > 0);
    let met: Vec<_> = met.map(|(k, count)| format!("{k}: {count}")).collect();
    met.join(", ")
}

/// The requirements that came up, and how often the waiting side was at the slack or one off it, where met turns to unmet.
#[derive(Default)]
pub struct Sides {
    all: usize,
    pub unmet: usize,
    /// Requirements whose slack is below zero.
    negative: usize,
    /// Sides one below the slack, at it, and one above it.
    below: usize,
    pub at: usize,
    pub above: usize,
}

impl Sides {
    /// A requirement of either program ends with the slack, the side and whether it is met.
    pub fn put(&mut self, answer: &str) {
        let words: Vec<_> = answer.split(' ').collect();
        let ["requirement", .., slack, side, met] = words[..] else {
            return;
        };
        self.all += 1;
        self.unmet += usize::from(met == "unmet");
        let (Ok(slack), Ok(side)) = (slack.parse::<i64>(), side.parse::<i64>()) else {
            return;
        };
        self.negative += usize::from(slack < 0);
        match side.saturating_sub(slack) {
            -1 => self.below += 1,
            0 => self.at += 1,
            1 => self.above += 1,
            _ => (),
        }
    }

    pub fn add(&mut self, other: &Sides) {
        self.all += other.all;
        self.unmet += other.unmet;
        self.negative += other.negative;
        self.below += other.below;
        self.at += other.at;
        self.above += other.above;
    }

    pub fn tell(&self) {
        println!(
            "  {} requirements, {} of them unmet, {} with a slack below zero; \
             {} waiting sides one below the slack, {} at it, {} one above it.",
            self.all, self.unmet, self.negative, self.below, self.at, self.above
        );
    }
}

/// What came of calls on images.
#[derive(Debug)]
pub struct Images {
    /// Starts, requests, releases, give-ups, ticks.
    pub accepted: [usize; 5],
    pub refused: [usize; 256],
    /// Ticks on images with a byte changed: refused 25, refused otherwise, accepted.
    pub changed: [usize; 3],
}

impl Default for Images {
    fn default() -> Self {
        Images {
            accepted: [0; 5],
            refused: [0; 256],
            changed: [0; 3],
        }
    }
}

impl Images {
    const LETTERS: [u8; 5] = *b"SQRWT";
    /// The bytes of a call, which end a case.
    const CALL: usize = 4;

    /// The answer to a case, which begins with its word where it is one of these.
    pub fn put(&mut self, case: &[u8], answer: &str) {
        let mut words = answer.split(' ');
        let kind = words.next();
        let mut number = || words.next().and_then(|word| word.parse().ok()).unwrap_or(0);
        match kind {
            Some("word") => {
                let letter = case.len().checked_sub(Self::CALL).map(|at| case[at]);
                let which = Self::LETTERS.iter().position(|&l| Some(l) == letter);
                match (number(), which) {
                    (0, Some(which)) => self.accepted[which] += 1,
                    (refusal, _) => self.refused[refusal % 256] += 1,
                }
            }
            Some("counts") => self.changed.iter_mut().for_each(|count| *count += number()),
            _ => (),
        }
    }

    pub fn add(&mut self, other: &Images) {
        let mine = self.accepted.iter_mut().chain(&mut self.refused);
        let mine = mine.chain(&mut self.changed);
        let others = other.accepted.iter().chain(&other.refused);
        for (mine, other) in mine.zip(others.chain(&other.changed)) {
            *mine += other;
        }
    }

    pub fn tell(&self) {
        let [starts, requests, releases, give_ups, ticks] = self.accepted;
        println!(
            "  On images {starts} starts, {requests} requests, {releases} releases, {give_ups} give-ups and {ticks} ticks accepted; \
             refused by number: {}.",
            by_number(&self.refused)
        );
        let [not_sound, otherwise, accepted] = self.changed;
        println!(
            "  Ticks on images with one byte changed: {not_sound} refused 25, {otherwise} refused otherwise, {accepted} accepted."
        );
    }
}
