//! Seasons of calls, made by a small generator and encoded.

use crate::plain::{PERIODS, Terms};

pub struct Season {
    pub terms: Terms,
    /// room in the journal
    pub lines: usize,
    /// twelve bytes for each call: kind, place or period or run, supplier or quality, day, number of the schedule, moment or kWh
    pub calls: Vec<u8>,
    /// 34 bytes for each row, 48 rows for each schedule
    pub schedules: Vec<u8>,
}

struct Dice(u64);

impl Dice {
    fn below(&mut self, limit: u32) -> u32 {
        self.0 = self.0.wrapping_mul(6_364_136_223_846_793_005).wrapping_add(1_442_695_040_888_963_407);
        ((self.0 >> 33) % u64::from(limit)) as u32
    }
}

const DAYS: u16 = 62;
const CAPACITY: u32 = 1_000;

impl Season {
    /// A site of so many places, whose rows take these methods in turn.
    /// Each day is scheduled, read and issued; then come late readings and some new holders, and each day's last issue.
    pub fn new(places: u8, methods: &[u8]) -> Season {
        let terms = Terms { places, days: DAYS, capacity: CAPACITY };
        let lines = usize::from(DAYS) * PERIODS * usize::from(places) * 4;
        let mut season = Season { terms, lines, calls: Vec::new(), schedules: Vec::new() };
        let mut dice = Dice(u64::from(places));
        for place in 0..places {
            season.call(0, place, 101 + u16::from(place), 0, 0, 0);
        }
        for day in 0..DAYS {
            season.first_issue(&mut dice, methods, day);
        }
        for day in 0..DAYS {
            season.last_issue(&mut dice, day);
        }
        season
    }

    /// A short list of calls of all kinds, lawful or not, on a site of three days with little room.
    pub fn short(places: u8, start: u64) -> Season {
        let terms = Terms { places, days: 3, capacity: CAPACITY };
        let mut dice = Dice(start);
        let lines = dice.below(2_000) as usize;
        let mut season = Season { terms, lines, calls: Vec::new(), schedules: Vec::new() };
        for _ in 0..4 * PERIODS {
            // methods that the site may have, but now and then any
            let method = match (dice.below(400), places) {
                (0, _) => dice.below(10),
                (_, 2) => 1 + dice.below(3),
                (_, 3) => 4 + dice.below(2),
                (_, 4) => [4, 6, 7][dice.below(3) as usize],
                _ => [4, 6][dice.below(2) as usize],
            };
            season.row(&mut dice, method as u8);
        }
        for i in 0..places + 3 * PERIODS as u8 {
            let day = u16::from(i.saturating_sub(places)) / PERIODS as u16;
            if i < places {
                // now and then only from day 1 on, so that day 0 lacks a holder
                let from = u16::from(dice.below(60) == 0);
                season.call(0, i, 101 + dice.below(3) as u16, from, 0, 0);
            } else if dice.below(200) > 0 {
                season.call(2, (i - places) % PERIODS as u8 + 1, 1, day, 0, dice.below(2 * CAPACITY));
            }
        }
        for _ in 0..150 {
            season.any(&mut dice);
        }
        season
    }

    fn any(&mut self, dice: &mut Dice) {
        let day = dice.below(31) as u16 / 10;
        let party = dice.below(40) as u16 / 13;
        let supplier = if party == 3 { 0 } else { 101 + party };
        let gate = u32::from(day) * 1_440 + 1_380;
        let moment = gate + dice.below(6) / 5;
        match dice.below(40) {
            0..=5 => self.call(0, dice.below(u32::from(self.terms.places) + 1) as u8, supplier, day, 0, 0),
            6..=13 => self.call(1, 0, supplier, day, dice.below(5) as u16, moment),
            14..=25 => self.call(2, dice.below(50) as u8, dice.below(7) as u16 / 2, day, 0, dice.below(2 * CAPACITY)),
            26 => self.call(2, 7, 2, day, 0, 9_999_999 + dice.below(2)),
            27 => self.call(3, 0, supplier, day, 0, moment),
            _ => self.call(4, dice.below(40) as u8 / 19, 0, day, 0, 0),
        }
    }

    fn call(&mut self, kind: u8, small: u8, party: u16, day: u16, schedule: u16, number: u32) {
        self.calls.extend([kind, small]);
        self.calls.extend(party.to_be_bytes());
        self.calls.extend(day.to_be_bytes());
        self.calls.extend(schedule.to_be_bytes());
        self.calls.extend(number.to_be_bytes());
    }

    fn first_issue(&mut self, dice: &mut Dice, methods: &[u8], day: u16) {
        for i in 0..PERIODS {
            self.row(dice, methods[(i + usize::from(day)) % methods.len()]);
        }
        let gate = u32::from(day) * 1_440 + 1_380;
        // a minute late, and refused; then in time
        self.call(1, 0, 101, day, day, gate + 1);
        self.call(1, 0, 101, day, day, gate);
        for period in 1..=PERIODS as u8 {
            self.call(2, period, 1, day, 0, dice.below(2 * CAPACITY));
        }
        self.call(4, 1, 0, day, 0, 0);
    }

    fn last_issue(&mut self, dice: &mut Dice, day: u16) {
        for period in 1..=PERIODS as u8 {
            // an actual reading, and now and then an estimate after it, which is refused
            if dice.below(3) == 0 {
                self.call(2, period, 2, day, 0, dice.below(2 * CAPACITY));
            }
            if dice.below(12) == 0 {
                self.call(2, period, 1, day, 0, dice.below(2 * CAPACITY));
            }
        }
        if dice.below(4) == 0 {
            let place = 1 + dice.below(u32::from(self.terms.places) - 1) as u8;
            self.call(0, place, 201 + dice.below(20) as u16, day, 0, 0);
        }
        self.call(4, 2, 0, day, 0, 0);
    }

    /// A lawful row.
    fn row(&mut self, dice: &mut Dice, method: u8) {
        let places = u32::from(self.terms.places);
        let balance = match method {
            3 | 4 => dice.below(places),
            6 => 1 + dice.below(places - 1),
            _ => places - 1,
        };
        self.schedules.extend([method, balance as u8]);
        for place in 0..8 {
            let percentage = matches!(method, 1 | 5 | 7) && place + 2 == places;
            let nomination = if place >= places || place == balance {
                0
            } else if percentage {
                // in steps of 5%, so that halves are met
                dice.below(21) * 500
            } else {
                dice.below(CAPACITY / places + 1)
            };
            self.schedules.extend(nomination.to_be_bytes());
        }
    }
}
