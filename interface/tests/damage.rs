//! Damaged cards, garbage cards and garbage blocks over the single calls: what document 01 decides is compared with the
//! answer due; a step makes one store inside the card, answers, or refuses.

use std::ops::Bound;

use ration_table::calls::{Opening, Step, STATE_WORDS};
use ration_table::{Refusal, StateBlock};

use crate::guarded::Desk;
use crate::random::Random;
use crate::reader;

struct Damage {
    random: Random,
    events: u64,
}

impl Damage {
    /// A word such as stands on cards, or any.
    fn likely(&mut self, desk: &Desk) -> u32 {
        let card = desk.card();
        let there = card[self.random.below(card.len() as u32) as usize];
        match self.random.below(6) {
            0 => 0,
            1 => self.random.below(5),
            2 => self.random.below(card.len() as u32 / 24 + 2),
            3 => there,
            4 => there.wrapping_add(self.random.below(3)).wrapping_sub(1),
            _ => self.random.word(),
        }
    }

    /// The refusals of starting an update that do not hang on the free nodes.
    fn due_start(desk: &Desk, key: u32) -> Result<(), Refusal> {
        let block = desk.block().words();
        match reader::nodes(desk.card().len()) {
            Some(nodes) if nodes as u32 == block[0] => {}
            _ => return Err(Refusal::WrongLength),
        }
        reader::header(desk.card())?;
        if (1..=4).contains(&block[2]) {
            return Err(Refusal::Busy);
        }
        reader::find(desk.card(), key).map(|_| ())
    }

    fn steps(&mut self, desk: &mut Desk) {
        for _ in 0..100 {
            match desk.step() {
                Ok(Step::Stored { .. }) => {}
                Ok(_) => return,
                Err(refusal) => return assert!(matches!(refusal.number(), 1 | 2 | 3 | 9 | 10), "step: {refusal}"),
            }
        }
    }

    /// The next pair: the one due on a card whose header is wrong or that is sound; else any pair above, nothing or 9.
    fn check_next(&mut self, desk: &mut Desk) {
        let due = reader::header(desk.card()).map(|_| reader::table(desk.card()));
        for _ in 0..3 {
            let number = self.likely(desk);
            let next = desk.next_after(number).map(|next| next.answer);
            match &due {
                Err(refusal) => assert_eq!(next, Err(*refusal), "next after {number}"),
                Ok(Some(reading)) => {
                    let above = reading.map.range((Bound::Excluded(number), Bound::Unbounded)).next();
                    assert_eq!(next, Ok(above.map(|(&key, &value)| (key, value))), "next after {number}");
                }
                Ok(None) => assert!(
                    matches!(next, Ok(None) | Err(Refusal::BrokenWay))
                        || matches!(next, Ok(Some((key, _))) if key > number),
                    "next after {number}: {next:?}"
                ),
            }
        }
    }

    fn try_calls(&mut self, desk: &mut Desk) {
        for _ in 0..3 {
            let key = self.likely(desk);
            assert_eq!(desk.find(key), reader::find(desk.card(), key), "find {key}");
        }
        self.check_next(desk);
        let family = self.likely(desk);
        assert_eq!(desk.family_total(family).is_err(), family > 15, "family {family}");
        self.steps(desk);
        let key = self.likely(desk);
        let due = Self::due_start(desk, key);
        if self.random.percent(50) {
            assert_eq!(desk.start_delete(key), due, "delete {key}");
        } else {
            let answer = desk.start_insert(key, 1);
            assert!(answer == due || (due.is_ok() && answer == Err(Refusal::NoRoom)), "insert {key}: {answer:?}");
        }
        self.steps(desk);

        let due = reader::open(desk.card());
        assert_eq!(desk.open(), due, "open");
        if due == Ok(Opening::Repairing) {
            while matches!(desk.step(), Ok(Step::Stored { .. })) {}
            assert_eq!(reader::open(desk.card()), Ok(Opening::Idle), "not repaired");
        }
    }

    /// A table worked by random updates, damaged in the midst of one, again and again.
    fn damaged(&mut self, nodes: usize, tries: u32) {
        let mut sound = Desk::new(8 + 24 * nodes);
        sound.start_format().unwrap();
        while matches!(sound.step(), Ok(Step::Stored { .. })) {}
        for _ in 0..tries {
            let key = 1 + self.random.below(6 * nodes as u32);
            let _ = if self.random.percent(60) { sound.start_insert(key, key) } else { sound.start_delete(key) };
            for _ in 0..self.random.below(120) {
                let _ = sound.step();
            }
            let mut desk = Desk::new(8 + 24 * nodes);
            for (place, &word) in sound.card().iter().enumerate() {
                desk.set(place, word);
            }
            desk.set_block(sound.block().clone());
            for _ in 0..=self.random.below(3) {
                let place = if self.random.percent(10) { 8 } else { desk.card().len() as u32 };
                let (place, word) = (self.random.below(place), self.likely(&desk));
                desk.set(place as usize, word);
            }
            self.try_calls(&mut desk);
            self.events += desk.events;
        }
        self.events += sound.events;
    }

    fn garbage(&mut self, nodes: u32, tries: u32) {
        for _ in 0..tries {
            let mut desk = Desk::new(8 + 24 * nodes as usize);
            for place in 0..desk.card().len() {
                let word = if self.random.percent(50) { self.random.below(nodes + 2) } else { self.random.word() };
                desk.set(place, word);
            }
            if self.random.percent(80) {
                for (place, word) in [1, nodes, 8, 24, 1 + self.random.below(nodes), 0, 0, 0].into_iter().enumerate() {
                    desk.set(place, word);
                }
                for node in 0..nodes as usize {
                    let kind = 1 + self.random.below(3);
                    desk.set(8 + 24 * node, kind);
                }
            }
            let mut words = [0; STATE_WORDS];
            words.fill_with(|| self.random.word());
            if self.random.percent(80) {
                words[0] = nodes;
                words[2] = self.random.below(6);
                words[6] = self.random.below(80);
                words[7] = self.random.below(80);
                words[31..104].fill_with(|| self.random.below(desk.card().len() as u32 + 1));
            }
            desk.set_block(StateBlock::from_words(words));
            self.try_calls(&mut desk);
            self.events += desk.events;
        }
    }

    fn lengths(&mut self) {
        for words in [0, 1, 7, 8, 80, 103, 104, 105, 14_408, 14_409, 14_432] {
            let mut desk = Desk::new(words);
            let due = reader::nodes(words).map(|_| ()).ok_or(Refusal::WrongLength);
            assert_eq!(desk.find(7), due.and(Err(Refusal::NotFormatted)));
            assert_eq!(desk.next_after(7), due.and(Err(Refusal::NotFormatted)));
            assert_eq!(desk.open(), due.and(Err(Refusal::NotFormatted)));
            assert_eq!(desk.step(), Err(Refusal::WrongLength));
            assert_eq!(desk.start_insert(7, 70), Err(Refusal::WrongLength));
            assert_eq!(desk.start_delete(7), Err(Refusal::WrongLength));
            assert_eq!(desk.family_total(15), Ok(0));
            assert_eq!(desk.family_total(16), Err(Refusal::NoFamily));
            assert_eq!(desk.start_format(), due);
            self.events += desk.events;
        }
    }
}

pub fn test() -> u64 {
    let mut damage = Damage { random: Random(12), events: 0 };
    damage.lengths();
    for (nodes, tries) in [(6, 5000), (12, 5000), (20, 5000), (60, 3000)] {
        damage.damaged(nodes, tries);
    }
    for (nodes, tries) in [(4, 5000), (6, 5000), (12, 5000), (60, 1000), (600, 50), (2600, 10)] {
        damage.garbage(nodes, tries);
    }
    damage.events
}
