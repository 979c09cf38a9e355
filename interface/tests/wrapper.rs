//! What the wrapper's types offer their caller: a loop of one's own, `?`, `unwrap`, what is printed, the parts given back.

use std::error::Error;
use std::num::NonZeroU32;

use ration_table::{
    calls, card_words, family_of, FinalAnswer, InProgress, Opened, Pairs, Progress, Refusal, Refused, StateBlock,
    Table, Unfinished, WithDepth,
};

const NODES: usize = 4;

fn key(key: u32) -> NonZeroU32 {
    NonZeroU32::new(key).unwrap()
}

/// Steps to the final answer, and counts the stores.
fn finish<A: FinalAnswer>(mut work: InProgress<A>) -> Result<(Table, A, usize), Refused<InProgress<A>>> {
    let mut stores = 0;
    loop {
        match work.step()? {
            Progress::Stored { more, .. } => work = more,
            Progress::Done(table, answer) => return Ok((table, answer, stores)),
        }
        stores += 1;
    }
}

/// A `?` on what a call refuses, as a number alone.
fn put_in(table: Table, pair: u32) -> Result<Table, Refusal> {
    let (table, held, _) = finish(table.insert(key(pair), 10 * pair)?)?;
    assert_eq!(held.answer, None);
    Ok(table)
}

fn boxed(table: Table) -> Result<(), Box<dyn Error>> {
    let _ = table.insert(key(12), 120).map_err(Refusal::from)?;
    Ok(())
}

/// A box that may borrow holds the whole of it.
fn boxed_whole<'a>(table: Table<'a>) -> Result<(), Box<dyn Error + 'a>> {
    let _ = table.insert(key(12), 120)?;
    Ok(())
}

fn full<'a>(card: &'a mut [u32], state: &'a mut StateBlock) -> Table<'a> {
    let (mut table, (), stores) = finish(Table::format(card, state).unwrap()).unwrap();
    assert_eq!(stores, card_words(NODES) + 1);
    for pair in 1..=11 {
        table = put_in(table, pair).unwrap();
    }
    table
}

fn refusals() {
    let (mut card, mut state) = ([0; card_words(NODES)], StateBlock::new());
    let table = full(&mut card, &mut state);
    let refused = table.insert(key(12), 120).unwrap_err();
    let text = "refused 8: too few free nodes for the insert";
    assert_eq!(refused.to_string(), text);
    assert_eq!(format!("{refused:?}"), "Refused { unchanged: Table { card_words: 104, .. }, refusal: NoRoom }");
    let table = refused.unchanged;
    assert_eq!(put_in(table, 12).unwrap_err(), Refusal::NoRoom);
    let (mut card, mut state) = ([0; card_words(NODES)], StateBlock::new());
    assert_eq!(boxed(full(&mut card, &mut state)).unwrap_err().to_string(), text);
    assert_eq!(boxed_whole(full(&mut card, &mut state)).unwrap_err().to_string(), text);
}

/// Abandoned with one of its two stores made an insert is out, with both it is in.
fn abandoned() {
    let (mut card, mut state) = ([0; card_words(NODES)], StateBlock::new());
    let (mut table, (), _) = finish(Table::format(&mut card, &mut state).unwrap()).unwrap();
    for (stores, found) in [(0, None), (1, None), (2, Some(70))] {
        let mut update = table.insert(key(7), 70).unwrap();
        for _ in 0..stores {
            let Ok(Progress::Stored { more, .. }) = update.step() else { panic!("no store") };
            update = more;
        }
        assert_eq!(format!("{update:?}"), "InProgress { table: Table { card_words: 104, .. }, .. }");
        let (card, state) = update.into_parts();
        let Opened::Idle(opened) = Table::open(card, state).unwrap() else { panic!("a repair") };
        assert_eq!(opened.find(key(7)), Ok(WithDepth { answer: found, depth: 0 }));
        table = opened;
    }
    let (_, state) = table.into_parts();
    assert!(format!("{state:?}").starts_with("StateBlock(["));
}

/// A card that `finish_with` alone writes is the copy's words; a write that fails is a cut, whether its word reached the card or not.
fn behind_a_bus() {
    let (mut bus, mut copy, mut state) = ([0; card_words(NODES)], [0; card_words(NODES)], StateBlock::new());
    let formatting = Table::format(&mut copy, &mut state).unwrap();
    let write = |place: usize, word: u32| -> Result<(), ()> {
        bus[place] = word;
        Ok(())
    };
    let Ok((mut table, ())) = formatting.finish_with(write) else { panic!("not formatted") };
    assert_eq!(table.card(), bus);
    for (reaches, fails_at, found) in [(false, 1, None), (true, 1, None), (false, 2, None), (true, 2, Some(70))] {
        let mut writes = 0;
        let write = |place: usize, word: u32| {
            writes += 1;
            if writes < fails_at || reaches {
                bus[place] = word;
            }
            if writes < fails_at {
                Ok(())
            } else {
                Err("broken")
            }
        };
        let Err(Unfinished::Unwritten { error, ahead }) = table.insert(key(7), 70).unwrap().finish_with(write) else {
            panic!("written")
        };
        assert_eq!(error, "broken");
        let (copy, state) = ahead.into_parts();
        copy.copy_from_slice(&bus);
        let Opened::Idle(opened) = Table::open(copy, state).unwrap() else { panic!("a repair") };
        assert_eq!(opened.find(key(7)), Ok(WithDepth { answer: found, depth: 0 }));
        table = opened;
    }
}

/// The iterator over a card: rising, the same between the steps of an update until its deciding one, and ended by a refusal.
fn walked() {
    let all = |pairs: Pairs| pairs.collect::<Result<Vec<_>, _>>();
    let (mut card, mut state) = ([0; card_words(NODES)], StateBlock::new());
    let formatting = Table::format(&mut card, &mut state).unwrap();
    let Progress::Stored { more: formatting, .. } = formatting.step().unwrap() else { panic!("formatted") };
    let mut pairs = formatting.pairs();
    assert_eq!((pairs.next(), pairs.next()), (Some(Err(Refusal::NotFormatted)), None));
    assert_eq!(formatting.next_after(0), Err(Refusal::NotFormatted));
    let (mut table, (), _) = finish(formatting).unwrap();
    assert_eq!((table.pairs().next(), table.next_after(0)), (None, Ok(WithDepth { answer: None, depth: 0 })));
    for pair in [7, u32::MAX, 1] {
        (table, _) = table.insert(key(pair), pair / 2).unwrap().finish().unwrap();
    }
    let three = vec![(key(1), 0), (key(7), 3), (key(u32::MAX), u32::MAX / 2)];
    assert_eq!(all(table.pairs()), Ok(three.clone()));
    assert_eq!(table.next_after(u32::MAX), Ok(WithDepth { answer: None, depth: 0 }));

    let update = table.delete(key(7)).unwrap();
    let mut pairs = update.pairs();
    assert_eq!(pairs.next(), Some(Ok(three[0])));
    assert_eq!(format!("{pairs:?}"), "Pairs { card_words: 104, after: Some(1), .. }");
    assert_eq!(all(pairs.clone()), Ok(three[1..].to_vec()));
    assert_eq!(pairs.by_ref().count(), 2);
    assert_eq!(pairs.next(), None);
    let Progress::Stored { more: update, .. } = update.step().unwrap() else { panic!("no store") };
    assert_eq!(all(update.pairs()), Ok(vec![three[0], three[2]]));
    drop(update);

    card[4] = 9; // the root is no node of the card
    assert_eq!(Pairs::on(&card).collect::<Vec<_>>(), [Err(Refusal::BrokenWay)]);
    assert_eq!(Pairs::on(&card[1..]).collect::<Vec<_>>(), [Err(Refusal::WrongLength)]);
}

/// The depth beside each answer: an update tells that of its start, which is another after a root was split or merged.
fn depths() {
    let (mut card, mut state) = ([0; card_words(6)], StateBlock::new());
    let (mut table, (), _) = finish(Table::format(&mut card, &mut state).unwrap()).unwrap();
    for pair in 1..=11 {
        table = put_in(table, pair).unwrap();
    }
    assert_eq!(table.find(key(7)), Ok(WithDepth { answer: Some(70), depth: 0 }));
    let (table, inserted) = table.insert(key(12), 120).unwrap().finish().unwrap();
    assert_eq!(inserted, WithDepth { answer: None, depth: 0 });
    assert_eq!(table.find(key(7)), Ok(WithDepth { answer: Some(70), depth: 1 }));
    assert_eq!(table.find(key(13)), Ok(WithDepth { answer: None, depth: 1 }));
    assert_eq!(table.next_after(6), Ok(WithDepth { answer: Some((key(7), 70)), depth: 1 }));
    assert_eq!(table.next_after(12), Ok(WithDepth { answer: None, depth: 1 }));
    let (table, inserted) = table.insert(key(12), 121).unwrap().finish().unwrap();
    assert_eq!(inserted, WithDepth { answer: Some(120), depth: 1 });
    let (mut table, mut deleted) = table.delete(key(13)).unwrap().finish().unwrap();
    assert_eq!(deleted, WithDepth { answer: None, depth: 1 });
    let mut depth = 1;
    for pair in 1..=9 {
        (table, deleted) = table.delete(key(pair)).unwrap().finish().unwrap();
        assert_eq!(deleted, WithDepth { answer: Some(10 * pair), depth });
        depth = table.find(key(12)).unwrap().depth;
    }
    assert_eq!(depth, 0);
}

/// A family's total: 0 in a new block and while formatting, an update counted from its deciding store on, the same after a cut.
fn totals() {
    let (mut card, mut state) = ([0; card_words(NODES)], StateBlock::new());
    assert_eq!(calls::family_total(&state, 0), Ok(0));
    let table = full(&mut card, &mut state);
    assert_eq!((table.family_total(0), table.family_total(1)), (Ok(11), Ok(0)));
    let formatting = Table::format(&mut card, &mut state).unwrap();
    assert_eq!(formatting.find(key(11)), Ok(WithDepth { answer: Some(110), depth: 0 }));
    assert_eq!(formatting.family_total(0), Ok(0));
    let (mut table, (), _) = finish(formatting).unwrap();
    for (family, number) in [(15, u32::MAX), (15, 0xf000_0000), (14, 0xefff_ffff), (0, 1), (0, 0x0fff_ffff)] {
        assert_eq!(family_of(number), family);
        let before = table.family_total(family).unwrap();
        let mut update = table.insert(key(number), 1).unwrap();
        for counted in [0, 1] {
            let Progress::Stored { more, .. } = update.step().unwrap() else { panic!("no store") };
            assert_eq!(more.family_total(family), Ok(before + counted));
            update = more;
        }
        let (card, state) = update.into_parts();
        let Opened::Idle(opened) = Table::open(card, state).unwrap() else { panic!("a repair") };
        assert_eq!(opened.family_total(family), Ok(before + 1));
        table = opened;
    }
    let Progress::Stored { more: update, .. } = table.delete(key(u32::MAX)).unwrap().step().unwrap() else { panic!() };
    assert_eq!(update.family_total(15), Ok(1));
    assert_eq!(update.family_total(16), Err(Refusal::NoFamily));
    let (card, state) = update.into_parts();
    assert_eq!(Table::open(&mut card[1..], state).unwrap_err(), Refusal::WrongLength);
    assert_eq!(calls::family_total(state, 0), Ok(0));
}

/// The manual's text for each refusal is the one that is printed here.
fn texts() {
    let manual = include_str!("../include/ration_table.h");
    let refusals = [
        Refusal::WrongLength,
        Refusal::NotFormatted,
        Refusal::WrongHeader,
        Refusal::NotSound,
        Refusal::FewFree,
        Refusal::KeyZero,
        Refusal::Busy,
        Refusal::NoRoom,
        Refusal::BrokenWay,
        Refusal::NothingToStep,
        Refusal::WrongDump,
        Refusal::TooShort,
        Refusal::NoFamily,
    ];
    for (refusal, number) in refusals.into_iter().zip(1..) {
        assert_eq!(refusal.number(), number);
        let printed = refusal.to_string();
        let text = printed.strip_prefix(&format!("refused {number}: ")).unwrap();
        assert!(manual.contains(&format!("return \"{text}\";")), "{printed}: not the manual's text");
    }
}

pub fn test() {
    refusals();
    abandoned();
    behind_a_bus();
    walked();
    depths();
    totals();
    texts();
}
