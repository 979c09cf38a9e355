//! What document 01 says of a card, read off its words by recursion. Written apart from the table and from reader.c.

use std::collections::BTreeMap;

use ration_table::calls::Opening;
use ration_table::{Refusal, WithDepth};

pub fn nodes(words: usize) -> Option<usize> {
    (4..=2600).find(|n| words == 8 + 24 * n)
}

pub fn header(card: &[u32]) -> Result<usize, Refusal> {
    let n = nodes(card.len()).ok_or(Refusal::WrongLength)?;
    if card[0] != 1 {
        return Err(Refusal::NotFormatted);
    }
    if card[1..4] != [n as u32, 8, 24] || card[5..8] != [0, 0, 0] {
        return Err(Refusal::WrongHeader);
    }
    Ok(n)
}

fn node(card: &[u32], m: u32) -> Option<&[u32]> {
    let n = (card.len() - 8) / 24;
    (1..=n).contains(&(m as usize)).then(|| &card[8 + 24 * (m as usize - 1)..][..24])
}

fn children(node: &[u32]) -> &[u32] {
    let all = &node[12..23];
    &all[..all.iter().position(|&m| m == 0).unwrap_or(11)]
}

/// The leaf that a key leads to, the number of 11-child nodes without a break straight above it, and that of all internal nodes
/// passed, tagged ones too.
pub struct Landing<'a> {
    pub leaf: &'a [u32],
    pub run: usize,
    pub depth: u32,
}

pub fn landing(card: &[u32], key: u32) -> Option<Landing<'_>> {
    let mut at = node(card, card[4])?;
    let mut passed = Vec::new();
    while matches!(at[0], 2 | 3) {
        let below = children(at);
        passed.push(below.len());
        if below.is_empty() || passed.len() > 12 {
            return None;
        }
        let index = at[1..below.len()].iter().take_while(|&&routing| routing <= key).count();
        at = node(card, below[index])?;
    }
    let run = passed.iter().rev().take_while(|&&count| count == 11).count();
    (at[0] == 1).then_some(Landing { leaf: at, run, depth: passed.len() as u32 })
}

/// The depth of a number's way on a card; nothing where the way is refused.
pub fn depth(card: &[u32], number: u32) -> Option<u32> {
    header(card).ok()?;
    landing(card, number).map(|landing| landing.depth)
}

pub fn value_in(leaf: &[u32], key: u32) -> Option<u32> {
    (0..11).find(|i| leaf[1 + i] == key).map(|i| leaf[12 + i])
}

pub fn is_full(leaf: &[u32]) -> bool {
    leaf[1..12].iter().all(|&key| key != 0)
}

pub fn find(card: &[u32], key: u32) -> Result<WithDepth<Option<u32>>, Refusal> {
    header(card)?;
    if key == 0 {
        return Err(Refusal::KeyZero);
    }
    let Landing { leaf, depth, .. } = landing(card, key).ok_or(Refusal::BrokenWay)?;
    Ok(WithDepth { answer: value_in(leaf, key), depth })
}

/// A sound table.
#[derive(Default)]
pub struct Reading {
    pub map: BTreeMap<u32, u32>,
    pub reached: Vec<u32>,
    pub faults: usize,
    pub run: usize,
}

impl Reading {
    pub fn free(&self, card: &[u32]) -> usize {
        (card.len() - 8) / 24 - self.reached.len()
    }

    /// Reads the part below node m and gives its height, tagged nodes not counted; nothing where it is not sound.
    fn part(&mut self, card: &[u32], m: u32, root: bool, range: std::ops::Range<u64>, run: usize) -> Option<usize> {
        let at = node(card, m)?;
        if self.reached.contains(&m) || at[23] != 0 {
            return None;
        }
        self.reached.push(m);
        if at[0] == 1 {
            let before = self.map.len();
            for i in (0..11).filter(|i| at[1 + i] != 0) {
                let new = self.map.insert(at[1 + i], at[12 + i]).is_none();
                if !new || !range.contains(&u64::from(at[1 + i])) {
                    return None;
                }
            }
            let pairs = self.map.len() - before;
            self.faults += usize::from(!root && pairs < 2);
            return (root || pairs > 0).then_some(0);
        }
        let below = children(at);
        let c = below.len();
        let tagged = at[0] == 3;
        let sized = if tagged { !root && c == 2 } else { at[0] == 2 && c >= if root { 2 } else { 1 } };
        if !sized || at[c..12].iter().chain(&at[12 + c..23]).any(|&word| word != 0) {
            return None;
        }
        self.faults += usize::from(tagged || c < 2);
        if tagged {
            self.run = run;
        }
        let routing: Vec<u64> = at[1..c].iter().map(|&key| u64::from(key)).collect();
        if !routing.is_sorted_by(|a, b| a < b) || routing.iter().any(|key| !range.contains(key)) {
            return None;
        }
        let run_below = if c == 11 { run + 1 } else { 0 };
        let mut heights = Vec::new();
        for (i, &child) in below.iter().enumerate() {
            let low = if i == 0 { range.start } else { routing[i - 1] };
            let end = *routing.get(i).unwrap_or(&range.end);
            heights.push(self.part(card, child, false, low..end, run_below)?);
        }
        let level = heights.iter().all(|&height| height == heights[0]);
        level.then_some(heights[0] + usize::from(!tagged))
    }
}

/// The table of a card whose header is right.
pub fn table(card: &[u32]) -> Option<Reading> {
    let mut reading = Reading::default();
    reading.part(card, card[4], true, 1..1 << 32, 0)?;
    (reading.faults <= 1).then_some(reading)
}

pub fn open(card: &[u32]) -> Result<Opening, Refusal> {
    header(card)?;
    let reading = table(card).ok_or(Refusal::NotSound)?;
    if reading.free(card) < 3 + reading.run {
        return Err(Refusal::FewFree);
    }
    Ok(if reading.faults == 0 { Opening::Idle } else { Opening::Repairing })
}
