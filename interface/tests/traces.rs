//! Replays traces word for word over the single calls. The first line, `features`, names the requests of document 02 that the
//! traces are right for. Of the program's `list` lines the pairs are compared with a walk over the card, and the families with the
//! totals of the card opened.

use ration_table::calls::{self, Opening, Step, STATE_WORDS};
use ration_table::{Pairs, Refusal, StateBlock, FAMILIES};

use crate::guarded::{Desk, Guarded};
use crate::reader;

/// What hangs on the requests that a file is right for.
#[derive(Clone, Copy, Default)]
struct Features {
    /// W-205 had not landed: after an opening the search for free nodes begins at node 1.
    from_node_1: bool,
    /// W-203 had landed: every answer that carries a depth stands there with it. Where they do not, guarded.rs alone looks at them.
    depths: bool,
    /// W-210 had landed: a way of 12 internal nodes is no longer refused.
    twelve_nodes: bool,
    /// W-204 had landed: `list` has a line for each family that has pairs.
    families: bool,
}

impl Features {
    /// Before W-210 a way of more than 10 internal nodes was refused: such a call is left out, since it stored nothing and changed no
    /// state.
    fn was_too_deep(self, card: &[u32], key: u32, result: &str) -> bool {
        !self.twelve_nodes && result == "refused 9" && reader::depth(card, key).is_some_and(|depth| depth > 10)
    }

    fn with_depth(self, answer: String, depth: u32) -> String {
        if self.depths {
            format!("{answer} depth {depth}")
        } else {
            answer
        }
    }
}

fn crc(bytes: &[u8]) -> u32 {
    !bytes.iter().fold(u32::MAX, |crc, &byte| {
        (0..8).fold(crc ^ u32::from(byte), |crc, _| crc >> 1 ^ if crc & 1 == 1 { 0xedb8_8320 } else { 0 })
    })
}

fn crc_of_words(words: &[u32]) -> u32 {
    let bytes: Vec<u8> = words.iter().flat_map(|word| word.to_le_bytes()).collect();
    crc(&bytes)
}

fn number(text: &str) -> u32 {
    text.parse().unwrap_or_else(|_| panic!("no number: {text}"))
}

/// After an opening as it was before W-205: the search for free nodes begins at node 1 again, with 0 for the node given last.
fn search_from_node_1(desk: &mut Desk) {
    let mut words = *desk.block().words();
    words[1] = 0;
    desk.set_block(StateBlock::from_words(words));
}

fn free_bits(block: &StateBlock) -> u32 {
    block.words()[11..93].iter().map(|word| word.count_ones()).sum()
}

/// An answer in the words of a trace.
fn refused_or(answer: Result<String, Refusal>) -> String {
    answer.unwrap_or_else(|refusal| format!("refused {}", refusal.number()))
}

fn call(desk: &mut Desk, fields: &[&str], result: &str, features: Features) -> String {
    let started = |answer: Result<(), Refusal>| refused_or(answer.map(|()| "started".into()));
    match *fields {
        ["format"] => started(desk.start_format()),
        ["insert", key, value] => started(desk.start_insert(number(key), number(value))),
        ["delete", key] => started(desk.start_delete(number(key))),
        ["find", key] => refused_or(desk.find(number(key)).map(|found| match found.answer {
            Some(value) => features.with_depth(format!("found {value}"), found.depth),
            None => features.with_depth("absent".into(), found.depth),
        })),
        ["next", after] => refused_or(desk.next_after(number(after)).map(|next| match next.answer {
            // on a card that is not sound "any pair above X, none or refused 9 will do"
            Some((key, _)) if result == "loose" && key > number(after) => "loose".into(),
            None if result == "loose" => "loose".into(),
            Some((key, value)) => features.with_depth(format!("next {key} {value}"), next.depth),
            None => features.with_depth("none".into(), next.depth),
        })),
        ["open"] => {
            let answer = desk.open();
            if features.from_node_1 {
                search_from_node_1(desk);
            }
            let free = free_bits(desk.block());
            refused_or(answer.map(|opening| match opening {
                Opening::Idle => format!("idle {free}"),
                Opening::Repairing => format!("repairing {free}"),
            }))
        }
        ["total", family] => refused_or(desk.family_total(number(family)).map(|total| format!("total {total}"))),
        ["totals"] => {
            let totals: Result<Vec<String>, Refusal> =
                (0..FAMILIES).map(|family| Ok(desk.family_total(family)?.to_string())).collect();
            refused_or(totals.map(|totals| totals.join(" ")))
        }
        ["step"] => {
            let mut before = desk.card().to_vec();
            refused_or(desk.step().map(|step| match step {
                Step::Ready => "ready".into(),
                Step::Held { value, depth } => features.with_depth(format!("answer {value}"), depth),
                Step::Absent { depth } => features.with_depth("answer absent".into(), depth),
                Step::Stored { place } => {
                    // The card before, with the store that is due, is the card after.
                    let due: Vec<&str> = result.split(' ').collect();
                    assert!(due[0] == "store", "stored");
                    assert!(number(due[1]) as usize == place, "another place was told");
                    before[place] = number(due[2]);
                    assert!(desk.card() == before, "another store");
                    result.into()
                }
            }))
        }
        _ => panic!("no such call"),
    }
}

/// "the first L words, or the card followed by 0s; the card in hand is not changed, the state handed back counts"
fn call_on(desk: &mut Desk, words: usize, fields: &[&str], result: &str, features: Features) -> String {
    let mut other = Desk::new(words);
    for (place, &word) in desk.card().iter().take(words).enumerate() {
        other.set(place, word);
    }
    other.set_block(desk.block().clone());
    let answer = call(&mut other, fields, result, features);
    desk.set_block(other.block().clone());
    desk.events += other.events;
    answer
}

/// Bytes in hex, a run of z zero bytes as (z); an empty dump as -.
fn dump(text: &str) -> Vec<u8> {
    let mut bytes = Vec::new();
    let mut rest = text.trim_start_matches('-');
    while !rest.is_empty() {
        if let Some(run) = rest.strip_prefix('(') {
            let (zeros, after) = run.split_once(')').unwrap();
            bytes.resize(bytes.len() + number(zeros) as usize, 0);
            rest = after;
        } else {
            bytes.push(u8::from_str_radix(&rest[..2], 16).unwrap());
            rest = &rest[2..];
        }
    }
    bytes
}

/// What `list` prints for a dump, line feeds written /, but for the line of counts: the lines of the families, rising, and one for each
/// pair, or a refusal.
fn list(dump: &[u8], features: Features) -> String {
    let mut card = vec![0; 62_408];
    match calls::read_dump(dump, &mut card) {
        Err(refusal) => return format!("refused {}", refusal.number()),
        // "the programs still answer 11 above 57,856 bytes or 600 nodes"
        Ok(words) if words > 14_408 => return "refused 11".into(),
        Ok(words) => card.truncate(words),
    }
    let mut state = StateBlock::new();
    match calls::open(&card, &mut state) {
        Err(refusal) => format!("refused {}", refusal.number()),
        Ok(_) => {
            let families = (0..FAMILIES).filter_map(|family| match calls::family_total(&state, family) {
                Ok(0) => None,
                total => Some(total.map(|total| format!("family {family} {total}"))),
            });
            let pairs = Pairs::on(&card).map(|pair| pair.map(|(key, value)| format!("{key} {value}")));
            let lines = families.take(if features.families { 16 } else { 0 }).chain(pairs);
            lines.collect::<Result<Vec<_>, _>>().expect("refused").join("/")
        }
    }
}

/// Without the line of counts.
fn after_counts(text: &str) -> &str {
    let text = text.strip_suffix('/').unwrap();
    match text.split_once('/') {
        Some((_, lines)) => lines,
        None if text.starts_with("refused") => text,
        None => "",
    }
}

/// Gives the number of traces and of events.
pub fn test(text: &str) -> (u32, u64) {
    let (mut traces, mut stores, mut events) = (0, 0, 0);
    let mut features = Features::default();
    let mut desk = Desk::new(0);
    let mut bytes = Vec::new();
    for (line_number, line) in text.lines().enumerate() {
        let (event, result) = line.split_once(" -> ").unwrap_or((line, ""));
        let fields: Vec<&str> = event.split(' ').collect();
        let mut answer = None;
        match fields[..] {
            ["trace", _, nodes] => {
                events += desk.events;
                desk = Desk::new(8 + 24 * number(nodes) as usize);
                traces += 1;
                stores = 0;
            }
            ["card", place, ..] => {
                for (i, word) in fields[2..].iter().enumerate() {
                    desk.set(number(place) as usize + i, number(word));
                }
            }
            ["poke", place, word] => desk.set(number(place) as usize, number(word)),
            ["cut"] => desk.set_block(StateBlock::from_words([0xa5c3_a5c3; STATE_WORDS])),
            ["state0"] => desk.set_block(StateBlock::new()),
            ["crc", due] => assert_eq!(format!("{:08x}", crc_of_words(desk.card())), due, "line {}", line_number + 1),
            ["end", due, due_stores] => {
                assert_eq!(format!("{:08x}", crc_of_words(desk.card())), due, "line {}", line_number + 1);
                assert_eq!(stores, number(due_stores), "line {}", line_number + 1);
            }
            ["dump", hex] => bytes = dump(hex),
            ["read", lent] => {
                let mut words = Guarded::new(&vec![7; number(lent) as usize]);
                let length = calls::read_dump(&bytes, words.lend());
                let crc = crc_of_words(words.lend());
                answer = Some(refused_or(length.map(|length| format!("words {length} crc {crc:08x}"))));
                desk.events += 1;
            }
            ["write", lent] => {
                let mut lent = vec![7; number(lent) as usize];
                let length = calls::write_dump(desk.card(), &mut lent);
                answer = Some(refused_or(length.map(|length| format!("bytes {length} crc {:08x}", crc(&lent)))));
                desk.events += 1;
            }
            ["on", words, ref rest @ ..] => {
                answer = Some(call_on(&mut desk, number(words) as usize, rest, result, features));
            }
            ["run", steps, due] => {
                let mut stored = Vec::new();
                for _ in 0..number(steps) {
                    let Ok(Step::Stored { place }) = desk.step() else { panic!("line {}", line_number + 1) };
                    stored.extend([place as u32, desk.card()[place]]);
                }
                assert_eq!(format!("{:08x}", crc_of_words(&stored)), due, "line {}", line_number + 1);
                stores += number(steps);
            }
            ["list"] => assert_eq!(list(&bytes, features), after_counts(result), "line {}", line_number + 1),
            ["features", ..] => {
                features = Features {
                    from_node_1: !fields.contains(&"W-205"),
                    depths: fields.contains(&"W-203"),
                    twelve_nodes: fields.contains(&"W-210"),
                    families: fields.contains(&"W-204"),
                };
            }
            // what `insert_check` prints: looked at here is only whether it refuses the dump
            ["why", _] => {
                assert_eq!(list(&bytes, features) == "refused 11", result == "refused 11/", "line {}", line_number + 1)
            }
            ["#", ..] => {}
            ["find" | "next" | "insert" | "delete", key, ..]
                if features.was_too_deep(desk.card(), number(key), result) => {}
            _ => {
                let given = call(&mut desk, &fields, result, features);
                stores += u32::from(given.starts_with("store "));
                answer = Some(given);
            }
        }
        if let Some(answer) = answer {
            let loose = result == "loose" && answer == "refused 9";
            assert!(answer == result || loose, "line {}: {answer}, due {result}", line_number + 1);
        }
    }
    assert!(traces > 0);
    (traces, events + desk.events)
}
