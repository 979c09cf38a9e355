//! Tests the Rust wrapper and the table behind it: tests TRACES..

mod book;
mod damage;
mod guarded;
mod lists;
mod random;
mod reader;
mod traces;
mod wrapper;

fn main() {
    wrapper::test();
    let (mut traces, mut events) = (0, 0);
    for path in std::env::args().skip(1) {
        let text = std::fs::read_to_string(&path).unwrap_or_else(|_| panic!("cannot read {path}"));
        let (file_traces, file_events) = traces::test(&text);
        traces += file_traces;
        events += file_events;
    }
    assert!(traces > 0, "usage: tests TRACES..");
    let (list_events, cuts) = lists::test();
    events += list_events + damage::test();
    println!("Rust: all right, {traces} traces, {events} events, {cuts} cuts");
}
