//! Random and changed requests of transcripts that are played step by step, in so many transcripts as the argument says: each
//! call has to give a named answer and to write nothing beyond it, and what was not played has to leave the transcript as it
//! was. `cargo run --release --example changed_steps 100000`, and once under valgrind with fewer.
use std::ptr::{self, NonNull};

mod hostile;
#[allow(dead_code)]
#[path = "../src/library.rs"]
mod library;

use hostile::{demo, Chance, PROOF, UNWRITTEN};

const ROOM: usize = 1 << 12;

impl Chance {
    // The bytes with one of them changed, cut off, put in or taken out; or any bytes.
    fn changed(&mut self, bytes: &[u8]) -> Vec<u8> {
        let mut bytes = bytes.to_vec();
        let at = self.below(bytes.len());
        match self.below(5) {
            0 if !bytes.is_empty() => bytes[at] ^= 1 << self.below(8),
            1 => bytes.truncate(at),
            2 => bytes.insert(at, self.next() as u8),
            3 if !bytes.is_empty() => drop(bytes.remove(at)),
            _ => bytes = self.bytes(60),
        }
        bytes
    }
}

// A request: what the step is, its label, its numbers, and the value that comes with it.
fn request(what: u8, label: &str, numbers: &[u64], value: &[u8]) -> Vec<u8> {
    let mut bytes = vec![what, label.len() as u8];
    bytes.extend(label.as_bytes());
    bytes.extend((numbers.len() as u64).to_le_bytes());
    numbers.iter().for_each(|it| bytes.extend(it.to_le_bytes()));
    bytes.extend(value);
    bytes
}

fn prepared() -> NonNull<u8> {
    let description = demo().build().description();
    let mut prepared = ptr::null_mut();
    let told = told(ROOM, |answer, room| unsafe {
        library::tealmuze_prepare(
            description.as_ptr(),
            description.len(),
            &mut prepared,
            answer,
            room,
        )
    });
    assert_eq!(told, Some(vec![0]));
    NonNull::new(prepared).unwrap()
}

// The requests of the demo protocol, with the values that a prover sends or with none.
fn requests(proves: bool) -> Vec<Vec<u8>> {
    let number = |it: u64| it.to_le_bytes();
    let sent = |bytes: &[&[u8]]| if proves { bytes.concat() } else { Vec::new() };
    let salt = sent(&[&[0], &number(8), &PROOF[..8]]);
    let values = sent(&[&[2], &number(2), &number(1), &number(2)]);
    let note = sent(&[&[0], &number(2), b"hi"]);
    vec![
        request(4, "demo", &[0], &[]),
        request(24, "inputs", &[4, 9], &[]),
        request(6, "salt", &[8], &salt),
        request(12, "values", &[4], &values),
        request(15, "work", &[8], &[]),
        request(2, "alpha", &[], &[]),
        request(10, "note", &[16], &note),
        request(18, "indices", &[4, 2], &[]),
        request(5, "demo", &[0], &[]),
        vec![],
    ]
}

// What a call tells, or none where it wants more room. Exactly sized blocks show valgrind what is read past.
fn told(room: usize, call: impl FnOnce(*mut u8, usize) -> usize) -> Option<Vec<u8>> {
    let mut answer = vec![UNWRITTEN; room].into_boxed_slice();
    let wanted = call(answer.as_mut_ptr(), room);
    let (answer, left) = answer.split_at(if wanted <= room { wanted } else { 0 });
    assert!(left.iter().all(|it| *it == UNWRITTEN), "{wanted} bytes");
    match answer {
        [] => assert!(wanted > room),
        [0, ..] | [3] | [2, _, ..] => {}
        [1, rest @ ..] => assert!(rest.len() > 8),
        other => panic!("{other:?}"),
    }
    (wanted <= room).then(|| answer.to_vec())
}

fn begun(prepared: NonNull<u8>, proves: bool) -> NonNull<u8> {
    let mut transcript = ptr::null_mut();
    let told = told(ROOM, |answer, room| unsafe {
        if proves {
            library::tealmuze_prover(prepared.as_ptr(), &mut transcript, answer, room)
        } else {
            let proof = PROOF.to_vec().into_boxed_slice();
            library::tealmuze_verifier(
                prepared.as_ptr(),
                proof.as_ptr(),
                proof.len(),
                &mut transcript,
                answer,
                room,
            )
        }
    });
    assert_eq!(told, Some(vec![0]));
    NonNull::new(transcript).unwrap()
}

fn step(transcript: NonNull<u8>, request: &[u8], room: usize) -> Option<Vec<u8>> {
    let request = request.to_vec().into_boxed_slice();
    told(room, |answer, room| unsafe {
        library::tealmuze_step(
            transcript.as_ptr(),
            request.as_ptr(),
            request.len(),
            answer,
            room,
        )
    })
}

// Plays one transcript, with some other requests in between, and counts what is told of those.
fn play(chance: &mut Chance, prepared: NonNull<u8>, counts: &mut [u64; 5]) {
    let proves = chance.below(2) == 0;
    let transcript = begun(prepared, proves);
    // (an other request that is played or refused changes what comes of the transcript)
    let mut as_it_was = true;
    for right in requests(proves) {
        while chance.below(4) == 0 {
            let other = chance.changed(&right);
            let room = if chance.below(4) == 0 {
                chance.below(1200)
            } else {
                ROOM
            };
            let told = step(transcript, &other, room);
            let verdict = told.map_or(4, |it| usize::from(it[0]));
            counts[verdict] += 1;
            as_it_was &= verdict == 2 || verdict == 4;
        }
        let told = step(transcript, &right, ROOM).unwrap();
        assert!(!as_it_was || told[0] == 0, "{told:?}");
        if as_it_was && right.is_empty() && proves {
            assert_eq!(told[9..], PROOF);
        }
    }
    // it is freed at any place, too
    unsafe { library::tealmuze_free(transcript.as_ptr()) }
}

fn main() {
    let count = std::env::args()
        .nth(1)
        .map_or(100_000, |it| it.parse().unwrap());
    let mut chance = Chance(0x9e37_79b9_7f4a_7c15);
    let prepared = prepared();
    let mut counts = [0u64; 5];
    for _ in 0..count {
        play(&mut chance, prepared, &mut counts);
    }
    println!("other requests: played, refused, unasked, out of memory, room: {counts:?}");
    assert!(count < 100_000 || (counts[..3].iter().all(|it| *it > 0) && counts[3] == 0));
}
