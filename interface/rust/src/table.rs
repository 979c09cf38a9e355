//! The calls in their order, kept by types.

use core::fmt;
use core::marker::PhantomData;
use core::num::NonZeroU32;

use crate::calls::{self, Opening, StateBlock, Step, WithDepth};
use crate::{Pairs, Refusal};

/// A card that is open and idle. While it lives nothing else can write the card or the block, and an update takes it away
/// until the final answer:
///
/// ```compile_fail,E0382
/// # use core::num::NonZeroU32;
/// # use ration_table::Table;
/// fn two_at_once(table: Table, key: NonZeroU32) {
///     let first = table.insert(key, 1);
///     let second = table.delete(key);
/// }
/// ```
#[must_use]
pub struct Table<'a> {
    card: &'a mut [u32],
    state: &'a mut StateBlock,
}

/// Something in progress on a card, with final answer `A`. It has to be stepped; dropped it is a power cut, after which
/// the card has to be opened again. A second step needs what the first handed back:
///
/// ```compile_fail,E0382
/// # use ration_table::Update;
/// fn after_the_answer(update: Update) {
///     let _ = update.step();
///     let _ = update.step();
/// }
/// ```
#[must_use = "it has to be stepped to its final answer"]
pub struct InProgress<'a, A> {
    table: Table<'a>,
    answer: PhantomData<A>,
}

/// An insert or a delete. Its answer is the value that its key had before, with the depth of the key's way when it was started.
pub type Update<'a> = InProgress<'a, WithDepth<Option<u32>>>;

/// A repair that opening found due. It changes no pair; `find` works as ever.
pub type Repair<'a> = InProgress<'a, ()>;

/// A formatting. Until it is done `find` is refused with [`Refusal::NotFormatted`].
pub type Formatting<'a> = InProgress<'a, ()>;

/// What opening hands back.
#[derive(Debug)]
#[must_use]
pub enum Opened<'a> {
    Idle(Table<'a>),
    Repairing(Repair<'a>),
}

/// What a step hands back.
#[derive(Debug)]
#[must_use]
pub enum Progress<'a, A> {
    /// One word was stored, `more.card()[place]`. It has to be on the card before the next step.
    Stored { place: usize, more: InProgress<'a, A> },
    /// The final answer.
    Done(Table<'a>, A),
}

/// A refusal, with what was refused, unchanged. In a function that answers `Result<_, Refusal>` a `?` makes it a [`Refusal`].
/// What was refused borrows the card, so that a `Box<dyn Error>` cannot hold it: `map_err(Refusal::from)?` there.
#[derive(Debug)]
#[must_use]
pub struct Refused<T> {
    pub unchanged: T,
    pub refusal: Refusal,
}

impl<T> From<Refused<T>> for Refusal {
    fn from(refused: Refused<T>) -> Self {
        refused.refusal
    }
}

impl<T> fmt::Display for Refused<T> {
    fn fmt(&self, f: &mut fmt::Formatter<'_>) -> fmt::Result {
        self.refusal.fmt(f)
    }
}

impl<T: fmt::Debug> core::error::Error for Refused<T> {}

/// Why [`InProgress::finish_with`] gave no final answer.
#[derive(Debug)]
#[must_use]
pub enum Unfinished<'a, A, E> {
    /// A step was refused.
    Refused(Refused<InProgress<'a, A>>),
    /// A word could not be written, and the copy is ahead of the card. Read the card into it anew, or write the word after
    /// all, and open it: [`InProgress::into_parts`]. To the card it is a cut.
    Unwritten { error: E, ahead: InProgress<'a, A> },
}

/// The final answers of what can be in progress: a loop of your own over the steps of any of them asks for it.
///
/// ```
/// use ration_table::{FinalAnswer, InProgress, Progress, Refusal, Table};
///
/// /// Steps to the final answer, and counts the stores.
/// fn finish<'a, A: FinalAnswer>(mut work: InProgress<'a, A>, stores: &mut u32) -> Result<(Table<'a>, A), Refusal> {
///     loop {
///         match work.step()? {
///             Progress::Stored { more, .. } => work = more,
///             Progress::Done(table, answer) => return Ok((table, answer)),
///         }
///         *stores += 1;
///     }
/// }
/// ```
pub trait FinalAnswer: Sized + sealed::Sealed {
    #[doc(hidden)]
    fn of(step: Step) -> Self;
}

impl FinalAnswer for () {
    fn of(step: Step) -> Self {
        match step {
            Step::Ready => (),
            _ => unreachable!("formatting and repair end in ready"),
        }
    }
}

impl FinalAnswer for WithDepth<Option<u32>> {
    fn of(step: Step) -> Self {
        match step {
            Step::Held { value, depth } => Self { answer: Some(value), depth },
            Step::Absent { depth } => Self { answer: None, depth },
            _ => unreachable!("an update ends in a value or absent"),
        }
    }
}

mod sealed {
    pub trait Sealed {}
    impl Sealed for () {}
    impl Sealed for crate::WithDepth<Option<u32>> {}
}

impl<'a> Table<'a> {
    /// Starts to format a card; what it held is lost with the first step.
    pub fn format(card: &'a mut [u32], state: &'a mut StateBlock) -> Result<Formatting<'a>, Refusal> {
        calls::start_format(card, state)?;
        Ok(InProgress::on(Table { card, state }))
    }

    /// Opens a card, whatever the block holds.
    pub fn open(card: &'a mut [u32], state: &'a mut StateBlock) -> Result<Opened<'a>, Refusal> {
        match calls::open(card, state)? {
            Opening::Idle => Ok(Opened::Idle(Table { card, state })),
            Opening::Repairing => Ok(Opened::Repairing(InProgress::on(Table { card, state }))),
        }
    }

    /// Starts an insert. A key that is held keeps its value, which is then the answer.
    ///
    /// A delete and then an insert change the value, but they are two updates: **where power goes between them the key is
    /// absent**, and nothing on the card tells what its value was or was to be. Keep both elsewhere until the insert is done.
    pub fn insert(self, key: NonZeroU32, value: u32) -> Result<Update<'a>, Refused<Self>> {
        match calls::start_insert(self.card, self.state, key.get(), value) {
            Ok(()) => Ok(InProgress::on(self)),
            Err(refusal) => Err(Refused { unchanged: self, refusal }),
        }
    }

    /// Starts a delete. Before a delete that an insert of the same key is to follow see [`Table::insert`].
    pub fn delete(self, key: NonZeroU32) -> Result<Update<'a>, Refused<Self>> {
        match calls::start_delete(self.card, self.state, key.get()) {
            Ok(()) => Ok(InProgress::on(self)),
            Err(refusal) => Err(Refused { unchanged: self, refusal }),
        }
    }

    pub fn find(&self, key: NonZeroU32) -> Result<WithDepth<Option<u32>>, Refusal> {
        calls::find(self.card, key.get())
    }

    /// The pair with the smallest key above a number, which may be 0; nothing where no such key is held. The depth is that of the
    /// number's own way, also where the pair is in another leaf.
    pub fn next_after(&self, number: u32) -> Result<WithDepth<Option<(NonZeroU32, u32)>>, Refusal> {
        calls::next_after(self.card, number)
    }

    /// All pairs, in rising order of their keys.
    pub fn pairs(&self) -> Pairs<'_> {
        Pairs::on(self.card)
    }

    /// How many pairs of a feed family, 0 to 15, the table holds; above 15 [`Refusal::NoFamily`].
    ///
    /// ```
    /// # use core::num::NonZeroU32;
    /// # use ration_table::{card_words, family_of, Progress, Refusal, StateBlock, Table};
    /// # fn main() -> Result<(), Refusal> {
    /// # let mut card = [0; card_words(12)];
    /// # let mut state = StateBlock::new();
    /// # let (mut table, ()) = Table::format(&mut card, &mut state)?.finish()?;
    /// let ration = NonZeroU32::new(0xa000_0007).unwrap();
    /// assert_eq!(family_of(ration.get()), 10);
    /// let update = table.insert(ration, 70)?;
    /// let Progress::Stored { more: update, .. } = update.step()? else { panic!() }; // the value
    /// assert_eq!(update.family_total(10)?, 0);
    /// let Progress::Stored { more: update, .. } = update.step()? else { panic!() }; // the key: now the pair is in
    /// assert_eq!(update.family_total(10)?, 1);
    /// let (table, _) = update.finish()?;
    /// assert_eq!(table.family_total(10)?, 1);
    /// assert_eq!(table.family_total(16), Err(Refusal::NoFamily));
    /// # Ok(())
    /// # }
    /// ```
    pub fn family_total(&self, family: u32) -> Result<u32, Refusal> {
        calls::family_total(self.state, family)
    }

    pub fn write_dump(&self, bytes: &mut [u8]) -> Result<usize, Refusal> {
        calls::write_dump(self.card, bytes)
    }

    pub fn card(&self) -> &[u32] {
        self.card
    }

    /// The card and the block, to use anew; [`Table::open`] takes them.
    pub fn into_parts(self) -> (&'a mut [u32], &'a mut StateBlock) {
        (self.card, self.state)
    }
}

/// Without the card's words, which are up to 62,408.
impl fmt::Debug for Table<'_> {
    fn fmt(&self, f: &mut fmt::Formatter<'_>) -> fmt::Result {
        f.debug_struct("Table").field("card_words", &self.card.len()).finish_non_exhaustive()
    }
}

impl<'a, A: FinalAnswer> InProgress<'a, A> {
    fn on(table: Table<'a>) -> Self {
        Self { table, answer: PhantomData }
    }

    /// Stores one word, or gives the final answer.
    pub fn step(self) -> Result<Progress<'a, A>, Refused<Self>> {
        match calls::step(self.table.card, self.table.state) {
            Ok(Step::Stored { place }) => Ok(Progress::Stored { place, more: self }),
            Ok(last) => Ok(Progress::Done(self.table, A::of(last))),
            Err(refusal) => Err(Refused { unchanged: self, refusal }),
        }
    }

    /// Steps to the final answer, where nothing has to be done between the stores.
    pub fn finish(mut self) -> Result<(Table<'a>, A), Refused<Self>> {
        loop {
            match self.step()? {
                Progress::Stored { more, .. } => self = more,
                Progress::Done(table, answer) => return Ok((table, answer)),
            }
        }
    }

    /// Steps to the final answer, and hands the place of each word stored and the word to `write`, which brings it to the card
    /// of which the words lent are a copy in memory. It answers once the word is there whole.
    ///
    /// ```
    /// # use core::num::NonZeroU32;
    /// # use ration_table::{card_words, Refusal, StateBlock, Table, Unfinished};
    /// # fn main() -> Result<(), Refusal> {
    /// # let mut bus = [0; card_words(12)];
    /// let mut copy = [0; card_words(12)];
    /// let mut state = StateBlock::new();
    /// let formatting = Table::format(&mut copy, &mut state)?;
    /// let written = formatting.finish_with(|place, word| {
    ///     bus[place] = word; // say, a write to FRAM over SPI
    ///     Ok::<(), ()>(())
    /// });
    /// let (table, ()) = match written {
    ///     Ok(done) => done,
    ///     Err(Unfinished::Refused(refused)) => return Err(refused.into()),
    ///     Err(Unfinished::Unwritten { .. }) => panic!("the bus is broken"),
    /// };
    /// assert_eq!(table.card(), bus);
    /// # Ok(())
    /// # }
    /// ```
    pub fn finish_with<E>(
        mut self,
        mut write: impl FnMut(usize, u32) -> Result<(), E>,
    ) -> Result<(Table<'a>, A), Unfinished<'a, A, E>> {
        loop {
            match self.step().map_err(Unfinished::Refused)? {
                Progress::Stored { place, more } => {
                    if let Err(error) = write(place, more.card()[place]) {
                        return Err(Unfinished::Unwritten { error, ahead: more });
                    }
                    self = more;
                }
                Progress::Done(table, answer) => return Ok((table, answer)),
            }
        }
    }

    /// Looks a key up as the card is at this moment.
    pub fn find(&self, key: NonZeroU32) -> Result<WithDepth<Option<u32>>, Refusal> {
        self.table.find(key)
    }

    /// The pair with the smallest key above a number, which may be 0, as the card is at this moment.
    pub fn next_after(&self, number: u32) -> Result<WithDepth<Option<(NonZeroU32, u32)>>, Refusal> {
        self.table.next_after(number)
    }

    /// All pairs as the card is at this moment, in rising order of their keys: the next step waits for the end of the walk.
    pub fn pairs(&self) -> Pairs<'_> {
        self.table.pairs()
    }

    /// How many pairs of a feed family the table holds at this moment: an update counts from the store on that decides it, a repair
    /// changes no total, and while a card is formatted they are 0.
    pub fn family_total(&self, family: u32) -> Result<u32, Refusal> {
        self.table.family_total(family)
    }

    pub fn write_dump(&self, bytes: &mut [u8]) -> Result<usize, Refusal> {
        self.table.write_dump(bytes)
    }

    pub fn card(&self) -> &[u32] {
        self.table.card
    }

    /// Abandons it, as a power cut would: opening the card again is all that is needed. An update is then wholly in, where
    /// the store that decides it was made, or wholly out.
    ///
    /// ```
    /// # use ration_table::{Opened, Refusal, Table, Update};
    /// fn abandon(update: Update) -> Result<Table, Refusal> {
    ///     let (card, state) = update.into_parts();
    ///     match Table::open(card, state)? {
    ///         Opened::Idle(table) => Ok(table),
    ///         Opened::Repairing(repair) => Ok(repair.finish()?.0),
    ///     }
    /// }
    /// ```
    pub fn into_parts(self) -> (&'a mut [u32], &'a mut StateBlock) {
        self.table.into_parts()
    }
}

impl<A> fmt::Debug for InProgress<'_, A> {
    fn fmt(&self, f: &mut fmt::Formatter<'_>) -> fmt::Result {
        f.debug_struct("InProgress").field("table", &self.table).finish_non_exhaustive()
    }
}
