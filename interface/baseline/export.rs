//! The hand-written Rust table behind the calls of ration_table.h, so that tests and benchmarks can link it in the place of
//! the proved archive.

mod table;

use std::slice::{from_raw_parts, from_raw_parts_mut};

use table::{Opening, Refusal, State, Step, WithDepth};

const STATE_WORDS: usize = 276;
const _: () = assert!(size_of::<State>() == 4 * STATE_WORDS);

#[repr(C)]
pub struct Answer {
    code: u32,
    value: u32,
    key: u32,
    depth: u32,
}

fn code(code: u32) -> Answer {
    valued(code, 0)
}

fn valued(code: u32, value: u32) -> Answer {
    Answer { code, value, key: 0, depth: 0 }
}

fn value(value: WithDepth<Option<u32>>) -> Answer {
    Answer { depth: value.depth, ..value.answer.map_or(code(65), |value| valued(64, value)) }
}

fn pair(pair: WithDepth<Option<(u32, u32)>>) -> Answer {
    match pair.answer {
        Some((key, value)) => Answer { code: 72, value, key, depth: pair.depth },
        None => Answer { depth: pair.depth, ..code(73) },
    }
}

fn answer<T>(result: Result<T, Refusal>, of: impl Fn(T) -> Answer) -> Answer {
    result.map_or_else(code, of)
}

/// The block as a state, where it has the right length.
unsafe fn with_state(state: *mut u32, state_words: usize, call: impl FnOnce(&mut State) -> Answer) -> Answer {
    if state_words == STATE_WORDS {
        call(&mut *state.cast())
    } else {
        code(71)
    }
}

#[no_mangle]
pub unsafe extern "C" fn ration_start_format(card: *const u32, words: usize, state: *mut u32, n: usize) -> Answer {
    with_state(state, n, |s| answer(table::start_format(from_raw_parts(card, words), s), |()| code(69)))
}

#[no_mangle]
pub unsafe extern "C" fn ration_open(card: *const u32, words: usize, state: *mut u32, n: usize) -> Answer {
    with_state(state, n, |s| {
        answer(table::open(from_raw_parts(card, words), s), |opening| match opening {
            Opening::Idle => code(68),
            Opening::Repairing => code(69),
        })
    })
}

#[no_mangle]
pub unsafe extern "C" fn ration_find(card: *const u32, words: usize, key: u32) -> Answer {
    answer(table::find(from_raw_parts(card, words), key), value)
}

#[no_mangle]
pub unsafe extern "C" fn ration_next(card: *const u32, words: usize, after: u32) -> Answer {
    answer(table::next(from_raw_parts(card, words), after), pair)
}

#[no_mangle]
pub unsafe extern "C" fn ration_start_insert(
    card: *const u32,
    words: usize,
    state: *mut u32,
    n: usize,
    key: u32,
    value: u32,
) -> Answer {
    with_state(state, n, |s| answer(table::start_insert(from_raw_parts(card, words), s, key, value), |()| code(69)))
}

#[no_mangle]
pub unsafe extern "C" fn ration_start_delete(
    card: *const u32,
    words: usize,
    state: *mut u32,
    n: usize,
    key: u32,
) -> Answer {
    with_state(state, n, |s| answer(table::start_delete(from_raw_parts(card, words), s, key), |()| code(69)))
}

#[no_mangle]
pub unsafe extern "C" fn ration_step(card: *mut u32, words: usize, state: *mut u32, n: usize) -> Answer {
    with_state(state, n, |s| {
        answer(table::step(from_raw_parts_mut(card, words), s), |step| match step {
            Step::Stored(place) => valued(66, place),
            Step::Ready => code(67),
            Step::Answer(held) => value(held),
        })
    })
}

#[no_mangle]
pub unsafe extern "C" fn ration_family_total(state: *const u32, n: usize, family: u32) -> Answer {
    if n != STATE_WORDS {
        return code(71);
    }
    answer(table::family_total(&*state.cast(), family), |total| valued(75, total))
}

#[no_mangle]
pub unsafe extern "C" fn ration_read_dump(dump: *const u8, bytes: usize, words: *mut u32, lent: usize) -> Answer {
    let result = table::read_dump(from_raw_parts(dump, bytes), from_raw_parts_mut(words, lent));
    answer(result, |length| valued(70, length as u32))
}

#[no_mangle]
pub unsafe extern "C" fn ration_write_dump(card: *const u32, words: usize, bytes: *mut u8, lent: usize) -> Answer {
    let result = table::write_dump(from_raw_parts(card, words), from_raw_parts_mut(bytes, lent));
    answer(result, |length| valued(70, length as u32))
}
