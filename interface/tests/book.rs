//! The book of document 01 ("The book and the cut"): fed nothing but the cut and what the calls were and answered.

use std::collections::BTreeMap;

#[derive(Clone, Default)]
pub struct Book {
    pub pairs: BTreeMap<u32, u32>,
    /// How many of the pairs are of each family; counted anew with each change.
    pub totals: [u32; 16],
    hand: Option<InHand>,
}

#[derive(Clone)]
struct InHand {
    update: Update,
    steps: usize,
    deciding_step: usize,
    entered: bool,
}

#[derive(Clone, Copy)]
pub enum Update {
    Insert(u32, u32),
    Delete(u32),
}

impl Book {
    pub fn started(&mut self, update: Update, leaf_full: bool) {
        let deciding_step = match update {
            Update::Delete(_) => 1,
            Update::Insert(..) if leaf_full => 73,
            Update::Insert(..) => 2,
        };
        self.hand = Some(InHand { update, steps: 0, deciding_step, entered: false });
    }

    /// A step that was not refused.
    pub fn stepped(&mut self, is_final: bool) {
        let Some(hand) = &mut self.hand else { return };
        hand.steps += 1;
        if !hand.entered && (hand.steps == hand.deciding_step || is_final) {
            hand.entered = true;
            match hand.update {
                Update::Insert(key, value) => {
                    self.pairs.entry(key).or_insert(value);
                }
                Update::Delete(key) => {
                    self.pairs.remove(&key);
                }
            }
            self.totals = [0; 16];
            self.pairs.keys().for_each(|key| self.totals[(key / 0x1000_0000) as usize] += 1);
        }
        if is_final {
            self.hand = None;
        }
    }

    pub fn cut(&mut self) {
        self.hand = None;
    }
}
