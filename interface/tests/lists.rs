//! Random lists over the types `Table`, `Update` and `Repair`, beside the book, with cuts at random places and, in chosen
//! lists, after every store.

use std::fmt::Debug;
use std::num::NonZeroU32;
use std::ops::Bound;

use ration_table::{
    card_words, dump_bytes, Formatting, Opened, Pairs, Progress, Refusal, Repair, Table, Update, WithDepth, FAMILIES,
};

use crate::book::{self, Book};
use crate::guarded::{take_store_over, Answer, Guarded, GuardedState};
use crate::random::Random;
use crate::reader;

/// What is being done with an opened card; of an update also the final answer that is due.
enum Now<'a> {
    Idle(Table<'a>),
    Updating(Update<'a>, WithDepth<Option<u32>>),
    Repairing(Repair<'a>),
}

impl Now<'_> {
    fn card(&self) -> &[u32] {
        match self {
            Now::Idle(table) => table.card(),
            Now::Updating(update, _) => update.card(),
            Now::Repairing(repair) => repair.card(),
        }
    }

    fn check_find(&self, key: NonZeroU32, book: &Book) {
        let found = match self {
            Now::Idle(table) => table.find(key),
            Now::Updating(update, _) => update.find(key),
            Now::Repairing(repair) => repair.find(key),
        };
        self.check_answer(key.get(), found, book.pairs.get(&key.get()).copied());
    }

    /// A sound card's answer to a number, and the depth of the number's way.
    fn check_answer<T: Copy + PartialEq + Debug>(&self, number: u32, answer: Answer<T>, due: T) {
        let depth = reader::depth(self.card(), number).expect("no way down");
        assert_eq!(answer, Ok(WithDepth { answer: due, depth }), "asked for {number}");
    }

    fn pairs(&self) -> Pairs<'_> {
        match self {
            Now::Idle(table) => table.pairs(),
            Now::Updating(update, _) => update.pairs(),
            Now::Repairing(repair) => repair.pairs(),
        }
    }

    fn check_next(&self, number: u32, book: &Book) {
        let next = match self {
            Now::Idle(table) => table.next_after(number),
            Now::Updating(update, _) => update.next_after(number),
            Now::Repairing(repair) => repair.next_after(number),
        };
        let above = (Bound::Excluded(number), Bound::Unbounded);
        let due = book.pairs.range(above).next();
        self.check_answer(number, next, due.map(|(&key, &value)| (NonZeroU32::new(key).expect("no key"), value)));
    }

    /// "each total .. equals the pairs of that family in the map, also between steps and during a repair"
    fn check_totals(&self, book: &Book) {
        let total = |family| match self {
            Now::Idle(table) => table.family_total(family),
            Now::Updating(update, _) => update.family_total(family),
            Now::Repairing(repair) => repair.family_total(family),
        };
        for family in 0..FAMILIES {
            assert_eq!(total(family), Ok(book.totals[family as usize]), "family {family}");
        }
        assert_eq!(total(FAMILIES), Err(Refusal::NoFamily));
    }

    /// A walk gives the book's pairs in their order.
    fn check_walk(&self, book: &Book) {
        let walked = self.pairs().map(|pair| pair.map(|(key, value)| (key.get(), value)));
        assert!(walked.eq(book.pairs.iter().map(|(&key, &value)| Ok((key, value)))), "another walk");
    }

    /// The dump is the card's words, low byte first, and zero bytes.
    fn check_dump(&self) {
        let mut bytes = vec![7; dump_bytes(self.card().len() / 24)];
        let length = match self {
            Now::Idle(table) => table.write_dump(&mut bytes),
            Now::Updating(update, _) => update.write_dump(&mut bytes),
            Now::Repairing(repair) => repair.write_dump(&mut bytes),
        };
        assert_eq!(length, Ok(bytes.len()));
        let mut due: Vec<u8> = self.card().iter().flat_map(|word| word.to_le_bytes()).collect();
        due.resize(bytes.len(), 0);
        assert!(bytes == due, "another dump");
    }
}

pub struct List {
    pub nodes: usize,
    pub keys: u32,
    pub multiplier: u32,
    pub events: u64,
    /// Power goes on a copy after every store.
    pub cut_everywhere: bool,
}

struct Lists {
    random: Random,
    events: u64,
    cuts: u64,
}

fn open<'a>(card: &'a mut Guarded, state: &'a mut GuardedState) -> Now<'a> {
    match Table::open(card.lend(), &mut state.block).expect("opening refused") {
        Opened::Idle(table) => Now::Idle(table),
        Opened::Repairing(repair) => Now::Repairing(repair),
    }
}

/// The map is the book's; where the table is idle it is balanced.
fn check(card: &[u32], book: &Book, idle: bool) {
    let reading = reader::table(card).expect("not sound");
    assert!(reading.map == book.pairs, "the map is not the book's");
    assert!(!idle || (reading.faults == 0 && reading.free(card) >= 3), "idle and not balanced");
}

impl Lists {
    fn key(&mut self, list: &List) -> NonZeroU32 {
        let key = match self.random.below(100) {
            0 => u32::MAX,
            1 => 1,
            _ => (1 + self.random.below(list.keys)).wrapping_mul(list.multiplier),
        };
        NonZeroU32::new(key).expect("an odd multiplier makes no 0 of these")
    }

    fn start<'a>(&mut self, table: Table<'a>, book: &mut Book, list: &List, insert_percent: u32) -> Now<'a> {
        let key = self.key(list);
        let held = book.pairs.get(&key.get()).copied();
        let landing = reader::landing(table.card(), key.get()).expect("no way down");
        let full = reader::is_full(landing.leaf);
        let due = WithDepth { answer: held, depth: landing.depth };
        let needed = landing.run + 5;
        if !self.random.percent(insert_percent) {
            let Ok(update) = table.delete(key) else { panic!("delete refused") };
            book.started(book::Update::Delete(key.get()), full);
            return Now::Updating(update, due);
        }
        let free = || reader::table(table.card()).expect("not sound").free(table.card());
        let room = held.is_some() || !full || free() >= needed;
        let value = self.random.word();
        match table.insert(key, value) {
            Ok(update) => {
                assert!(room, "insert not refused");
                book.started(book::Update::Insert(key.get(), value), full);
                Now::Updating(update, due)
            }
            Err(refused) => {
                assert!(!room && refused.refusal == Refusal::NoRoom, "insert refused: {}", refused.refusal);
                Now::Idle(refused.unchanged)
            }
        }
    }

    /// One event; with it the place of the word stored, where one was.
    fn step<'a>(
        &mut self,
        now: Now<'a>,
        book: &mut Book,
        list: &List,
        insert_percent: u32,
    ) -> (Now<'a>, Option<usize>) {
        self.events += 1;
        match now {
            Now::Idle(table) => (self.start(table, book, list, insert_percent), None),
            Now::Updating(update, due) => match update.step() {
                Ok(Progress::Stored { place, more }) => {
                    book.stepped(false);
                    (Now::Updating(more, due), Some(place))
                }
                Ok(Progress::Done(table, answer)) => {
                    assert_eq!(answer, due, "final answer");
                    book.stepped(true);
                    (Now::Idle(table), None)
                }
                Err(refused) => panic!("update: {}", refused.refusal),
            },
            Now::Repairing(repair) => match repair.step() {
                Ok(Progress::Stored { place, more }) => (Now::Repairing(more), Some(place)),
                Ok(Progress::Done(table, ())) => (Now::Idle(table), None),
                Err(refused) => panic!("repair: {}", refused.refusal),
            },
        }
    }

    /// A card whose power has just gone is repaired, with further cuts within the repair.
    fn recover(&mut self, card: &[u32], book: &Book) {
        let mut card = Guarded::new(card);
        let mut state = GuardedState::new();
        loop {
            self.cuts += 1;
            self.events += 1;
            let mut now = open(&mut card, &mut state);
            check(now.card(), book, false);
            now.check_walk(book);
            now.check_totals(book);
            while let Now::Repairing(repair) = now {
                if self.random.below(60) == 0 {
                    now = Now::Repairing(repair);
                    break;
                }
                self.events += 1;
                now = match repair.step() {
                    Ok(Progress::Stored { more, .. }) => Now::Repairing(more),
                    Ok(Progress::Done(table, ())) => Now::Idle(table),
                    Err(refused) => panic!("repair: {}", refused.refusal),
                };
                now.check_totals(book);
            }
            if let Now::Idle(table) = now {
                return check(table.card(), book, true);
            }
        }
    }

    fn work(&mut self, list: &List) {
        let before: Vec<u32> = (0..card_words(list.nodes)).map(|_| self.random.word()).collect();
        let mut card = Guarded::new(&before);
        let mut state = GuardedState::new();
        let mut formatting: Formatting = Table::format(card.lend(), &mut state.block).expect("format refused");
        let table = loop {
            assert!((0..FAMILIES).all(|family| formatting.family_total(family) == Ok(0)), "a total while formatting");
            formatting = match formatting.step().expect("format refused") {
                Progress::Stored { more, .. } => more,
                Progress::Done(table, ()) => break table,
            };
        };
        Now::Idle(table).check_totals(&Book::default());
        let mut copy = card.words().to_vec();
        let mut book = Book::default();
        let mut insert_percent = 80;
        let end = self.events + list.events;
        while self.events < end {
            let mut now = open(&mut card, &mut state);
            check(now.card(), &book, matches!(now, Now::Idle(_)));
            now.check_totals(&book);
            self.events += 1;
            while self.events < end && self.random.below(2000) != 0 {
                if self.random.below(40 * list.nodes as u32) == 0 {
                    insert_percent = 100 - insert_percent;
                }
                if self.random.percent(20) {
                    let key = self.key(list);
                    now.check_find(key, &book);
                    let number = match self.random.below(8) {
                        0 => 0,
                        1 => u32::MAX,
                        2 => key.get() - 1,
                        3 => key.get().wrapping_add(1),
                        _ => key.get(),
                    };
                    now.check_next(number, &book);
                    assert!(now.card() == copy, "a find or a next stored");
                    self.events += 2;
                }
                let place;
                (now, place) = self.step(now, &mut book, list, insert_percent);
                now.check_totals(&book);
                match place {
                    Some(place) => take_store_over(now.card(), &mut copy, place),
                    None => assert!(now.card() == copy, "the card was changed and no place told"),
                }
                if place.is_some() && list.cut_everywhere {
                    let mut cut = book.clone();
                    cut.cut();
                    self.recover(&copy, &cut);
                }
                if self.random.below(8 * list.nodes as u32) == 0 {
                    check(now.card(), &book, matches!(now, Now::Idle(_)));
                    now.check_walk(&book);
                    now.check_dump();
                }
            }
            book.cut(); // what is in progress is dropped: power goes
            self.cuts += 1;
        }
    }
}

pub fn test() -> (u64, u64) {
    let mut lists = Lists { random: Random(1994), events: 0, cuts: 0 };
    for (nodes, keys, multiplier, events, cut_everywhere) in [
        (4, 20, 1, 50_000, false),
        (5, 20, 2_654_435_761, 50_000, false),
        (6, 40, 1, 150_000, false),
        (12, 100, 2_654_435_761, 150_000, false),
        (60, 500, 1, 200_000, false),
        (600, 5000, 2_654_435_761, 100_000, false),
        (2600, 20_000, 2_654_435_761, 30_000, false),
        (4, 14, 1, 20_000, true),
        (6, 30, 2_654_435_761, 150_000, true),
        (12, 80, 1, 200_000, true),
        (60, 300, 2_654_435_761, 200_000, true),
    ] {
        lists.work(&List { nodes, keys, multiplier, events, cut_everywhere });
    }
    (lists.events, lists.cuts)
}
