//! Random and changed descriptions, proofs and values, so many as the argument says: each call has to give a named answer, to
//! write nothing beyond it, and to answer the same with the protocol prepared. `cargo run --release --example changed 100000`,
//! and once under valgrind with fewer.
use std::ptr::{self, NonNull};

mod hostile;
#[allow(dead_code)]
#[path = "../src/library.rs"]
mod library;

use hostile::{demo, Chance, PROOF, UNWRITTEN};

const ROOM: usize = 1 << 16;

impl Chance {
    // The bytes with some of them changed, cut off, put in or taken out.
    fn changed(&mut self, bytes: &[u8]) -> Vec<u8> {
        let mut bytes = bytes.to_vec();
        for _ in 0..=self.below(3) {
            let at = self.below(bytes.len());
            match self.below(5) {
                0 if !bytes.is_empty() => bytes[at] ^= 1 << self.below(8),
                1 if !bytes.is_empty() => bytes[at] = self.next() as u8,
                2 => bytes.truncate(at),
                3 => bytes.insert(at, self.next() as u8),
                _ if !bytes.is_empty() => drop(bytes.remove(at)),
                _ => {}
            }
        }
        bytes
    }
}

// What a call returned and answered: no bytes where it wants more room.
#[derive(Debug, PartialEq, Eq)]
struct Told {
    wanted: usize,
    answer: Vec<u8>,
}

impl Told {
    // The first byte, or 4 where more room is wanted.
    fn verdict(&self) -> usize {
        self.answer.first().map_or(4, |it| usize::from(*it))
    }
}

// What a call tells. Exactly sized blocks show valgrind what is read past.
fn told(room: usize, call: impl FnOnce(*mut u8, usize) -> usize) -> Told {
    let mut answer = vec![UNWRITTEN; room].into_boxed_slice();
    let wanted = call(answer.as_mut_ptr(), room);
    let (answer, left) = answer.split_at(if wanted <= room { wanted } else { 0 });
    assert!(
        left.iter().all(|it| *it == UNWRITTEN),
        "written beyond {} of {wanted} bytes",
        answer.len()
    );
    match answer {
        [] => assert!(wanted > room),
        [0] | [3] => {}
        [0 | 2, _, ..] => {}
        [1, rest @ ..] => assert!(rest.len() > 8),
        other => panic!("{other:?}"),
    }
    let answer = answer.to_vec();
    Told { wanted, answer }
}

// What is asked: of a description's bytes, or of what is prepared.
#[derive(Clone, Copy)]
enum Asked<'a> {
    Described(&'a [u8]),
    Prepared(NonNull<u8>),
}

impl Asked<'_> {
    fn verify(self, proof: &[u8], carried: &[u64], room: usize) -> Told {
        told(room, |answer, room| match self {
            Asked::Described(description) => unsafe {
                library::tealmuze_verify(
                    description.as_ptr(),
                    description.len(),
                    proof.as_ptr(),
                    proof.len(),
                    carried.as_ptr(),
                    carried.len(),
                    answer,
                    room,
                )
            },
            Asked::Prepared(prepared) => unsafe {
                library::tealmuze_verify_prepared(
                    prepared.as_ptr(),
                    proof.as_ptr(),
                    proof.len(),
                    carried.as_ptr(),
                    carried.len(),
                    answer,
                    room,
                )
            },
        })
    }

    fn prove(self, values: &[u8], room: usize) -> Told {
        told(room, |answer, room| match self {
            Asked::Described(description) => unsafe {
                library::tealmuze_prove(
                    description.as_ptr(),
                    description.len(),
                    values.as_ptr(),
                    values.len(),
                    answer,
                    room,
                )
            },
            Asked::Prepared(prepared) => unsafe {
                library::tealmuze_prove_prepared(
                    prepared.as_ptr(),
                    values.as_ptr(),
                    values.len(),
                    answer,
                    room,
                )
            },
        })
    }
}

// What is prepared of a copy of a description, or why it is refused.
fn prepare(description: &[u8]) -> Result<NonNull<u8>, Told> {
    let description: &'static [u8] = description.to_vec().leak();
    let mut kept = ptr::null_mut();
    let told = told(1001, |answer, room| unsafe {
        library::tealmuze_prepare(
            description.as_ptr(),
            description.len(),
            &mut kept,
            answer,
            room,
        )
    });
    match NonNull::new(kept) {
        Some(kept) if told.answer == [0] => Ok(kept),
        None if told.verdict() != 0 => Err(told),
        _ => panic!("{told:?}, {kept:?}"),
    }
}

fn values() -> Vec<u8> {
    let number = |it: u64| it.to_le_bytes();
    [
        &number(3)[..],
        &[0],
        &number(8),
        &PROOF[..8],
        &[2],
        &number(2),
        &number(1),
        &number(2),
        &[0],
        &number(2),
        b"hi",
    ]
    .concat()
}

// What is asked in a round, and how much room is given.
struct Round {
    description: Vec<u8>,
    proof: Vec<u8>,
    sent: Vec<u8>,
    carried: Vec<u64>,
    room: usize,
}

impl Round {
    fn new(i: usize, chance: &mut Chance, demo: &[u8], values: &[u8]) -> Round {
        let description = match i % 4 {
            0 => chance.bytes(200),
            1 => [&[chance.below(3) as u8][..], &chance.bytes(200)].concat(),
            2 => chance.changed(demo),
            _ => demo.to_vec(),
        };
        let (proof, sent) = if i % 8 < 4 {
            (chance.changed(&PROOF), chance.changed(values))
        } else {
            (PROOF.to_vec(), values.to_vec())
        };
        Round {
            description,
            proof,
            sent,
            carried: (0..chance.below(8) / 6).map(|_| chance.next()).collect(),
            room: if i % 5 == 0 { chance.below(2048) } else { ROOM },
        }
    }

    // What the call that verifies tells, and the one that proves.
    fn told(&self, asked: Asked, room: usize) -> [Told; 2] {
        [
            asked.verify(&self.proof, &self.carried, room),
            asked.prove(&self.sent, room),
        ]
    }
}

fn main() {
    let count = std::env::args()
        .nth(1)
        .map_or(100_000, |it| it.parse().unwrap());
    let mut chance = Chance(0x9e37_79b9_7f4a_7c15);
    let (demo, values) = (demo().description(), values());
    // once for all rounds, since what is prepared is never freed
    let demo_prepared = prepare(&demo).unwrap();
    let mut verdicts = [[0u64; 5]; 2];
    for i in 0..count {
        let round = Round::new(i, &mut chance, &demo, &values);
        let described = Asked::Described(&round.description);
        let told = round.told(described, round.room);
        for (counts, told) in verdicts.iter_mut().zip(&told) {
            assert_ne!(told.answer, [0]);
            counts[told.verdict()] += 1;
        }
        let prepared = match i % 4 {
            3 => Ok(demo_prepared),
            _ => prepare(&round.description),
        };
        match prepared {
            Ok(it) => assert_eq!(round.told(Asked::Prepared(it), round.room), told),
            Err(refusal) => assert!(round.told(described, ROOM).iter().all(|it| *it == refusal)),
        }
    }
    println!(
        "verified: accepted, refused, unasked, out of memory, room: {:?}",
        verdicts[0]
    );
    println!("proved:   {:?}", verdicts[1]);
    // in so many each verdict comes up but that memory ran out
    assert!(
        count < 100_000
            || verdicts.iter().all(|it| it[0] > 0
                && it[1] > 0
                && it[2] > 0
                && it[3] == 0
                && it[4] > 0)
    );
}
