//! The standard library's map, behind C functions, to be measured beside the table.

use std::collections::BTreeMap;
use std::ops::Bound;

pub type Map = BTreeMap<u32, u32>;

#[no_mangle]
pub extern "C" fn map_new() -> Box<Map> {
    Box::default()
}

#[no_mangle]
pub extern "C" fn map_copy(map: &Map) -> Box<Map> {
    Box::new(map.clone())
}

#[no_mangle]
pub extern "C" fn map_free(_map: Box<Map>) {}

/// The value held, or 0.
#[no_mangle]
pub extern "C" fn map_find(map: &Map, key: u32) -> u32 {
    map.get(&key).copied().unwrap_or(0)
}

/// The smallest key above a number, or 0.
#[no_mangle]
pub extern "C" fn map_next(map: &Map, after: u32) -> u32 {
    map.range((Bound::Excluded(after), Bound::Unbounded)).next().map_or(0, |(&key, _)| key)
}

/// As the table's insert: a key that is held keeps its value.
#[no_mangle]
pub extern "C" fn map_insert(map: &mut Map, key: u32, value: u32) -> u32 {
    let mut held = value;
    map.entry(key).and_modify(|old| held = *old).or_insert(value);
    held
}

#[no_mangle]
pub extern "C" fn map_delete(map: &mut Map, key: u32) -> u32 {
    map.remove(&key).unwrap_or(0)
}
