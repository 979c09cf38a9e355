//! A controller that makes one step a tick, and keeps what is in progress from one tick to the next.
//!
//!     interface/make-archive && cargo run --manifest-path interface/examples/controller/Cargo.toml

use std::error::Error;
use std::num::NonZeroU32;

use ration_table::{
    card_words, family_of, FinalAnswer, InProgress, Opened, Progress, Refusal, StateBlock, Table, Update, WithDepth,
};

/// What is being done between two ticks.
enum Work<'a> {
    Idle(Table<'a>),
    Updating(Update<'a>),
}

/// What a tick did.
enum Tick {
    Nothing,
    Stored,
    /// The update is done; the value that its key had before, and how many internal nodes its way down passed.
    Done(WithDepth<Option<u32>>),
}

struct Controller<'a> {
    work: Option<Work<'a>>, // none only within a call
}

impl<'a> Controller<'a> {
    /// Takes up a card whose state is gone, or whose update is to be abandoned.
    fn open(card: &'a mut [u32], state: &'a mut StateBlock) -> Result<Self, Refusal> {
        let table = match Table::open(card, state)? {
            Opened::Idle(table) => table,
            Opened::Repairing(repair) => finish(repair, &mut |_| ())?.0,
        };
        Ok(Self { work: Some(Work::Idle(table)) })
    }

    fn start_insert(&mut self, key: NonZeroU32, value: u32) -> Result<(), Refusal> {
        let (work, answer) = match self.work.take().expect("none only within a call") {
            Work::Idle(table) => match table.insert(key, value) {
                Ok(update) => (Work::Updating(update), Ok(())),
                Err(refused) => (Work::Idle(refused.unchanged), Err(refused.refusal)),
            },
            busy => (busy, Err(Refusal::Busy)),
        };
        self.work = Some(work);
        answer
    }

    fn tick(&mut self) -> Result<Tick, Refusal> {
        let (work, answer) = match self.work.take().expect("none only within a call") {
            Work::Updating(update) => match update.step() {
                Ok(Progress::Stored { more, .. }) => (Work::Updating(more), Ok(Tick::Stored)),
                Ok(Progress::Done(table, held)) => (Work::Idle(table), Ok(Tick::Done(held))),
                Err(refused) => (Work::Updating(refused.unchanged), Err(refused.refusal)),
            },
            idle => (idle, Ok(Tick::Nothing)),
        };
        self.work = Some(work);
        answer
    }

    /// By what is on the card at this moment, within an update too.
    fn find(&self, key: NonZeroU32) -> Result<WithDepth<Option<u32>>, Refusal> {
        match self.work.as_ref().expect("none only within a call") {
            Work::Idle(table) => table.find(key),
            Work::Updating(update) => update.find(key),
        }
    }

    /// How many rations a feed family has at this moment, within an update too.
    fn family_total(&self, family: u32) -> Result<u32, Refusal> {
        match self.work.as_ref().expect("none only within a call") {
            Work::Idle(table) => table.family_total(family),
            Work::Updating(update) => update.family_total(family),
        }
    }

    /// Abandons an update: the card is opened again, and the update is wholly in or wholly out.
    fn abandon(self) -> Result<Self, Refusal> {
        let (card, state) = match self.work.expect("none only within a call") {
            Work::Idle(table) => table.into_parts(),
            Work::Updating(update) => update.into_parts(),
        };
        Self::open(card, state)
    }
}

/// Steps anything that is in progress to its final answer; `stored` is called after each store.
fn finish<'a, A: FinalAnswer>(
    mut work: InProgress<'a, A>,
    stored: &mut dyn FnMut(&[u32]),
) -> Result<(Table<'a>, A), Refusal> {
    loop {
        match work.step()? {
            Progress::Stored { more, .. } => work = more,
            Progress::Done(table, answer) => return Ok((table, answer)),
        }
        stored(work.card());
    }
}

fn main() -> Result<(), Box<dyn Error>> {
    let mut card = [0; card_words(12)];
    let mut state = StateBlock::new();
    let mut stores = 0;
    let formatting = Table::format(&mut card, &mut state)?;
    let (table, ()) = finish(formatting, &mut |_| stores += 1)?;
    println!("formatted with {stores} stores");

    let mut controller = Controller { work: Some(Work::Idle(table)) };
    for ration in 1..=12 {
        let key = NonZeroU32::new(ration).ok_or(Refusal::KeyZero)?;
        controller.start_insert(key, 10 * ration)?;
        let mut stores = 0;
        while let Tick::Stored = controller.tick()? {
            stores += 1;
        }
        let WithDepth { answer, depth } = controller.find(key)?;
        println!("ration {ration} put in with {stores} stores: {answer:?}, depth {depth}");
    }

    let key = NonZeroU32::new(13).ok_or(Refusal::KeyZero)?;
    for stores in 1..=2 {
        controller.start_insert(key, 130)?;
        for _ in 0..stores {
            controller.tick()?;
        }
        controller = controller.abandon()?;
        println!("ration 13, abandoned with {stores} of its 2 stores made: {:?}", controller.find(key)?.answer);
    }
    let ration = NonZeroU32::new(0x3000_0001).ok_or(Refusal::KeyZero)?;
    let family = family_of(ration.get());
    controller.start_insert(ration, 1)?;
    loop {
        println!("ration {ration} is being put in: family {family} has {}", controller.family_total(family)?);
        if let Tick::Done(_) = controller.tick()? {
            break;
        }
    }
    controller.start_insert(key, 131)?;
    if let Tick::Done(held) = controller.tick()? {
        println!("ration 13 put in once more, which changes nothing: {:?}, depth {}", held.answer, held.depth);
    }
    if let Err(refusal) = controller.start_insert(key, 132).and_then(|()| controller.start_insert(key, 133)) {
        println!("a second update before the first is done: {refusal}");
    }
    Ok(())
}
