//! The calls of `include/ration_table.h` one by one. Each may be made at any time on any card and block and answers or
//! refuses; [`crate::Table`] puts them in order.

use core::num::NonZeroU32;

use crate::Refusal;

/// The words of a state block.
pub const STATE_WORDS: usize = 276;

/// The state block. Its words are the table's own.
#[derive(Clone, Debug, PartialEq, Eq)]
pub struct StateBlock([u32; STATE_WORDS]);

impl StateBlock {
    /// The idle state for a card of 0 nodes, with which every call is refused until a card is opened or formatted.
    pub const fn new() -> Self {
        Self([0; STATE_WORDS])
    }

    /// Any words: the calls stay total. An update that is in progress by these words may tell any depth, and [`family_total`] any
    /// number.
    pub const fn from_words(words: [u32; STATE_WORDS]) -> Self {
        Self(words)
    }

    pub fn words(&self) -> &[u32; STATE_WORDS] {
        &self.0
    }
}

impl Default for StateBlock {
    fn default() -> Self {
        Self::new()
    }
}

/// An answer, and how deep the call went for it: how many internal nodes stood on the given number's way down to its leaf when the
/// call began, an update when it was started; tagged ones are counted. It is 0 where the root is that leaf, and at most 12. A refusal
/// carries none.
///
/// ```
/// # use core::num::NonZeroU32;
/// # use ration_table::{card_words, Refusal, StateBlock, Table, WithDepth};
/// # fn main() -> Result<(), Refusal> {
/// # let mut card = [0; card_words(12)];
/// # let mut state = StateBlock::new();
/// # let (mut table, ()) = Table::format(&mut card, &mut state)?.finish()?;
/// # let key = |key| NonZeroU32::new(key).unwrap();
/// for ration in 1..=11 {
///     (table, _) = table.insert(key(ration), 10 * ration)?.finish()?;
/// }
/// assert_eq!(table.find(key(7))?, WithDepth { answer: Some(70), depth: 0 });
///
/// // The root is full: the twelfth pair splits it, and the insert tells the depth of before.
/// let (table, inserted) = table.insert(key(12), 120)?.finish()?;
/// assert_eq!(inserted, WithDepth { answer: None, depth: 0 });
/// assert_eq!(table.find(key(7))?, WithDepth { answer: Some(70), depth: 1 });
/// # Ok(())
/// # }
/// ```
#[derive(Clone, Copy, Debug, PartialEq, Eq)]
pub struct WithDepth<T> {
    pub answer: T,
    pub depth: u32,
}

#[repr(C)]
struct Answer {
    code: u32,
    value: u32,
    key: u32,
    depth: u32,
}

const VALUE: u32 = 64;
const ABSENT: u32 = 65;
const STORED: u32 = 66;
const READY: u32 = 67;
const IDLE: u32 = 68;
const STARTED: u32 = 69;
const LENGTH: u32 = 70;
const NEXT: u32 = 72;
const NONE: u32 = 73;
const TOTAL: u32 = 75;

#[link(name = "ration_table", kind = "static")]
extern "C" {
    fn ration_start_format(card: *const u32, card_words: usize, state: *mut u32, state_words: usize) -> Answer;
    fn ration_open(card: *const u32, card_words: usize, state: *mut u32, state_words: usize) -> Answer;
    fn ration_find(card: *const u32, card_words: usize, key: u32) -> Answer;
    fn ration_next(card: *const u32, card_words: usize, after: u32) -> Answer;
    fn ration_start_insert(
        card: *const u32,
        card_words: usize,
        state: *mut u32,
        state_words: usize,
        key: u32,
        value: u32,
    ) -> Answer;
    fn ration_start_delete(
        card: *const u32,
        card_words: usize,
        state: *mut u32,
        state_words: usize,
        key: u32,
    ) -> Answer;
    fn ration_step(card: *mut u32, card_words: usize, state: *mut u32, state_words: usize) -> Answer;
    fn ration_family_total(state: *const u32, state_words: usize, family: u32) -> Answer;
    fn ration_read_dump(dump: *const u8, dump_bytes: usize, words: *mut u32, words_lent: usize) -> Answer;
    fn ration_write_dump(card: *const u32, card_words: usize, bytes: *mut u8, bytes_lent: usize) -> Answer;
}

// Every unsafe block below lends slices with their lengths: aligned, valid, and not overlapping, since the borrows are
// Rust's; the calls read and write nothing else.

/// What opening found.
#[derive(Clone, Copy, Debug, PartialEq, Eq)]
pub enum Opening {
    Idle,
    Repairing,
}

/// What a step did, or the final answer.
#[derive(Clone, Copy, Debug, PartialEq, Eq)]
pub enum Step {
    /// One word was stored, in this place of the card; go on stepping.
    Stored { place: usize },
    /// The formatting or the repair is done.
    Ready,
    /// The update is done; its key was held before, with this value. The depth is that of the key's way when the update was
    /// started.
    Held { value: u32, depth: u32 },
    /// The update is done; its key was not held before.
    Absent { depth: u32 },
}

pub fn start_format(card: &[u32], state: &mut StateBlock) -> Result<(), Refusal> {
    started(unsafe { ration_start_format(card.as_ptr(), card.len(), state.0.as_mut_ptr(), STATE_WORDS) })
}

pub fn open(card: &[u32], state: &mut StateBlock) -> Result<Opening, Refusal> {
    let answer = unsafe { ration_open(card.as_ptr(), card.len(), state.0.as_mut_ptr(), STATE_WORDS) };
    match answer.code {
        IDLE => Ok(Opening::Idle),
        STARTED => Ok(Opening::Repairing),
        number => Err(Refusal::from_number(number)),
    }
}

pub fn find(card: &[u32], key: u32) -> Result<WithDepth<Option<u32>>, Refusal> {
    let answer = unsafe { ration_find(card.as_ptr(), card.len(), key) };
    let found = match answer.code {
        VALUE => Some(answer.value),
        ABSENT => None,
        number => return Err(Refusal::from_number(number)),
    };
    Ok(WithDepth { answer: found, depth: answer.depth })
}

/// The pair, key and value, with the smallest key above a number, which may be 0; nothing where no such key is held. The depth is
/// that of the number's own way, also where the pair is in another leaf. On a card that [`open`] refuses with
/// [`Refusal::NotSound`] it is any pair above the number, nothing or [`Refusal::BrokenWay`].
pub fn next_after(card: &[u32], number: u32) -> Result<WithDepth<Option<(NonZeroU32, u32)>>, Refusal> {
    let answer = unsafe { ration_next(card.as_ptr(), card.len(), number) };
    let pair = match (answer.code, NonZeroU32::new(answer.key)) {
        (NEXT, Some(key)) => Some((key, answer.value)),
        (NEXT, None) => unreachable!("0 is above no number"),
        (NONE, _) => None,
        (number, _) => return Err(Refusal::from_number(number)),
    };
    Ok(WithDepth { answer: pair, depth: answer.depth })
}

/// A key that is held keeps its value. To delete it first is an update of its own: see [`crate::Table::insert`].
pub fn start_insert(card: &[u32], state: &mut StateBlock, key: u32, value: u32) -> Result<(), Refusal> {
    started(unsafe { ration_start_insert(card.as_ptr(), card.len(), state.0.as_mut_ptr(), STATE_WORDS, key, value) })
}

pub fn start_delete(card: &[u32], state: &mut StateBlock, key: u32) -> Result<(), Refusal> {
    started(unsafe { ration_start_delete(card.as_ptr(), card.len(), state.0.as_mut_ptr(), STATE_WORDS, key) })
}

pub fn step(card: &mut [u32], state: &mut StateBlock) -> Result<Step, Refusal> {
    let answer = unsafe { ration_step(card.as_mut_ptr(), card.len(), state.0.as_mut_ptr(), STATE_WORDS) };
    match answer.code {
        STORED => Ok(Step::Stored { place: answer.value as usize }),
        READY => Ok(Step::Ready),
        VALUE => Ok(Step::Held { value: answer.value, depth: answer.depth }),
        ABSENT => Ok(Step::Absent { depth: answer.depth }),
        number => Err(Refusal::from_number(number)),
    }
}

/// How many pairs of a feed family the table holds: see [`crate::Table::family_total`]. It looks at no card. It is 0 in a new block,
/// while a card is formatted, and after an opening that was refused.
pub fn family_total(state: &StateBlock, family: u32) -> Result<u32, Refusal> {
    let answer = unsafe { ration_family_total(state.0.as_ptr(), STATE_WORDS, family) };
    match answer.code {
        TOTAL => Ok(answer.value),
        number => Err(Refusal::from_number(number)),
    }
}

/// Gives the length of the card in words; those lent beyond it are untouched.
pub fn read_dump(dump: &[u8], words: &mut [u32]) -> Result<usize, Refusal> {
    length(unsafe { ration_read_dump(dump.as_ptr(), dump.len(), words.as_mut_ptr(), words.len()) })
}

/// Gives the length of the dump in bytes; those lent beyond it are untouched.
pub fn write_dump(card: &[u32], bytes: &mut [u8]) -> Result<usize, Refusal> {
    length(unsafe { ration_write_dump(card.as_ptr(), card.len(), bytes.as_mut_ptr(), bytes.len()) })
}

fn started(answer: Answer) -> Result<(), Refusal> {
    match answer.code {
        STARTED => Ok(()),
        number => Err(Refusal::from_number(number)),
    }
}

fn length(answer: Answer) -> Result<usize, Refusal> {
    match answer.code {
        LENGTH => Ok(answer.value as usize),
        number => Err(Refusal::from_number(number)),
    }
}
