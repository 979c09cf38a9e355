use core::fmt;
use core::iter::FusedIterator;
use core::num::NonZeroU32;

use crate::{calls, Refusal};

/// The pairs of a card, key and value, in rising order of their keys. It borrows the card, which so stays as it is during the walk:
///
/// ```compile_fail,E0505
/// # use core::num::NonZeroU32;
/// # use ration_table::Table;
/// fn change_within_a_walk(table: Table, key: NonZeroU32) {
///     let mut pairs = table.pairs();
///     let update = table.insert(key, 1);
///     pairs.next();
/// }
/// ```
///
/// A refusal is the last that it gives: [`Refusal::NotFormatted`] while a card is formatted, [`Refusal::BrokenWay`] where
/// something else changed the card. Collected into a `Result` it is all pairs or that refusal:
///
/// ```
/// # use core::num::NonZeroU32;
/// # use ration_table::{Refusal, Table};
/// fn all(table: &Table) -> Result<Vec<(NonZeroU32, u32)>, Refusal> {
///     table.pairs().collect()
/// }
/// ```
#[derive(Clone)]
#[must_use = "an iterator does nothing until it is walked"]
pub struct Pairs<'a> {
    card: &'a [u32],
    /// The key that it gave last, at first 0; nothing where it has ended.
    after: Option<u32>,
}

impl<'a> Pairs<'a> {
    /// The pairs of any card, whether it can be opened or not. On one that opening refuses with [`Refusal::FewFree`] they are
    /// all that it holds, to be moved to a larger card.
    pub fn on(card: &'a [u32]) -> Self {
        Self { card, after: Some(0) }
    }
}

impl Iterator for Pairs<'_> {
    type Item = Result<(NonZeroU32, u32), Refusal>;

    fn next(&mut self) -> Option<Self::Item> {
        let next = calls::next_after(self.card, self.after?).map(|next| next.answer).transpose();
        self.after = match next {
            Some(Ok((key, _))) => Some(key.get()),
            _ => None,
        };
        next
    }
}

impl FusedIterator for Pairs<'_> {}

/// Without the card's words, which are up to 62,408.
impl fmt::Debug for Pairs<'_> {
    fn fmt(&self, f: &mut fmt::Formatter<'_>) -> fmt::Result {
        let words = self.card.len();
        f.debug_struct("Pairs").field("card_words", &words).field("after", &self.after).finish_non_exhaustive()
    }
}
