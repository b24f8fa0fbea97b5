//! `tealmuze_prepare` with too little room for its answer, which the crate never gives.
use std::ptr::NonNull;
use tealmuze::{Protocol, Step, Suite};

#[allow(dead_code)]
#[path = "../src/library.rs"]
mod library;

const UNWRITTEN: u8 = 0xa5;

// What it returns with so much room, the answer that it writes, and whether it writes a pointer. Beyond the answer it writes
// nothing, and nothing at all where it wants more room.
fn prepared(description: &'static [u8], room: usize) -> (usize, Vec<u8>, bool) {
    let mut answer = vec![UNWRITTEN; room];
    let none = NonNull::dangling().as_ptr();
    let mut kept = none;
    // SAFETY: each pointer and count are those of a slice, the description's for as long as the program runs.
    let wanted = unsafe {
        library::tealmuze_prepare(
            description.as_ptr(),
            description.len(),
            &mut kept,
            answer.as_mut_ptr(),
            room,
        )
    };
    let written = if wanted <= room { wanted } else { 0 };
    let left = answer.split_off(written);
    assert!(left.iter().all(|it| *it == UNWRITTEN), "{room}");
    (wanted, answer, kept != none)
}

// With each room it writes this answer, or wants more and then keeps nothing. 1001 bytes always suffice.
fn check(description: &'static [u8], told: &[u8]) {
    for room in 0..1100 {
        let (wanted, answer, is_kept) = prepared(description, room);
        if wanted > room {
            assert!(wanted <= 1001 && !is_kept, "{room}");
        } else {
            assert_eq!((&answer[..], is_kept), (told, told == [0]), "{room}");
        }
    }
}

#[test]
fn a_description() {
    let it = Protocol::builder(Suite::BabyBearBytes, 1, "it").step("x", Step::Scalar);
    check(it.build().description(), &[0]);
}

#[test]
fn what_is_no_description() {
    check(&[255], b"\x02suite 255: unknown");
}
