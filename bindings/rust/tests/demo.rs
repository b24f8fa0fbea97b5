//! The demo protocol: its proof, hostile ones, and what is no description. All of it is
//! also asked of prepared protocols.
mod both;

use both::Both;
use std::{fs, thread};
use tealmuze::{Builder, Challenge, Error, Kind, Protocol, Step, Suite, Value};

const PROOF: [u8; 24] =
    *b"\x00\x11\x22\x33\x44\x55\x66\x77\x02\0\0\0\x01\0\0\0\x02\0\0\0\x36\x02hi";

fn demo() -> Builder {
    Protocol::builder(Suite::BabyBearElements, 2, "demo")
        .instance(b"example")
        .step("demo", Step::Begin(Kind::Protocol))
        .step("inputs", Step::PublicScalarsBounded(4, vec![9]))
        .step("salt", Step::Salt(8))
        .step("values", Step::ScalarsBounded(4))
        .step("work", Step::Pow(8))
        .step("alpha", Step::ChallengeScalar)
        .step("note", Step::HintBounded(16))
        .step("indices", Step::ChallengeUniformBits { width: 4, n: 2 })
        .step("demo", Step::End(Kind::Protocol))
}

fn values() -> Vec<Value> {
    vec![
        Value::Bytes(PROOF[..8].to_vec()),
        Value::Scalars(vec![1, 2]),
        Value::Bytes(b"hi".to_vec()),
    ]
}

fn refused(error: Error) -> (u64, String) {
    match error {
        Error::Refused { position, reason } => (position, reason),
        other => panic!("{other}"),
    }
}

fn hex(digits: &str) -> Vec<u8> {
    let byte = |at: usize| u8::from_str_radix(&digits[at..at + 2], 16).unwrap();
    (0..digits.len() / 2).map(|i| byte(2 * i)).collect()
}

#[test]
fn proved_and_verified() {
    let demo = Both::of(demo().build());
    let proved = demo.prove(&values()).unwrap();
    assert_eq!(proved.proof, PROOF);
    assert_eq!((proved.witnesses, proved.carried), (vec![54], vec![]));
    let verified = demo.verify(&PROOF, &[]).unwrap();
    assert_eq!(verified.challenges, proved.challenges);
    assert_eq!(verified.challenges[0], Challenge::Scalars(vec![474253614]));
    let mut received = values();
    received.insert(2, Value::Witness(54));
    assert_eq!(verified.received, received);
}

#[test]
fn hostile_rows() {
    let demo = Both::of(demo().build());
    let path = concat!(
        env!("CARGO_MANIFEST_DIR"),
        "/../../crates/tealmuze/cases/hostile.tsv"
    );
    let rows = fs::read_to_string(path).unwrap();
    let mut played = 0;
    for row in rows.lines().filter(|it| !it.starts_with('#')) {
        let [_, proof, position, _, _, _, reason] = row.split('\t').collect::<Vec<_>>()[..] else {
            panic!("{row}")
        };
        let told = refused(demo.verify(&hex(proof), &[]).unwrap_err());
        assert_eq!(
            told,
            (position.parse().unwrap(), reason.to_string()),
            "{row}"
        );
        played += 1;
    }
    assert!(played >= 12);
}

#[test]
fn each_cut_and_each_byte_more() {
    let demo = Both::of(demo().build());
    for len in 0..PROOF.len() {
        refused(demo.verify(&PROOF[..len], &[]).unwrap_err());
    }
    let more = [&PROOF[..], &[0]].concat();
    assert_eq!(refused(demo.verify(&more, &[]).unwrap_err()).0, 9);
}

// A description that is none, and what is said of it.
fn malformed(description: Vec<u8>) -> String {
    let none = Both::of(Protocol::from_static(description.leak()));
    let error = none.verify(&PROOF, &[]).unwrap_err();
    assert_eq!(none.prepared.unwrap_err(), error);
    match error {
        Error::Malformed(reason) => reason,
        other => panic!("{other}"),
    }
}

#[test]
fn descriptions_that_are_none() {
    let whole = demo().description();
    for len in 0..whole.len() {
        assert_eq!(
            malformed(whole[..len].to_vec()),
            "the bytes end too early",
            "{len} bytes"
        );
    }
    assert_eq!(
        malformed([&whole[..], &[0]].concat()),
        "bytes are left over"
    );
    assert_eq!(malformed(vec![255]), "suite 255: unknown");
    let at = |place: usize, byte: u8| {
        let mut changed = whole.clone();
        changed[place] = byte;
        malformed(changed)
    };
    // the first byte of the name, its length, and what the first step is
    assert_eq!(at(3, 0xff), "a name or a label that is no text");
    assert_eq!(
        malformed(Protocol::builder(Suite::BabyBearElements, 2, "").description()),
        "name: expected 1 to 62 bytes"
    );
    let first = 7 + 8 + 8 + 7 + 8;
    assert_eq!(
        at(first, 99),
        "steps[0]: no step of this suite has this form"
    );
    let open = Protocol::builder(Suite::BabyBearElements, 2, "open")
        .step("x", Step::Begin(Kind::Protocol));
    assert_eq!(
        malformed(open.description()),
        "steps: containers do not nest, or hold a step of another kind"
    );
    let bits = Protocol::builder(Suite::BabyBearBytes, 2, "bits").step("x", Step::Pow(3));
    assert_eq!(
        malformed(bits.description()),
        "steps: the suite does not play one of them, or not with so many bits"
    );
    let order =
        Protocol::builder(Suite::BabyBearBytes, 2, "x").step("x", Step::PublicScalar(2013265921));
    assert_eq!(
        malformed(order.description()),
        "steps[0]: no step of this suite has this form"
    );
}

#[test]
fn what_is_handed_or_carried_wrong() {
    let demo = Both::of(demo().build());
    let wrong = |values: &[Value]| matches!(demo.prove(values), Err(Error::Malformed(_)));
    assert!(wrong(&[]));
    assert!(wrong(&values()[..2]));
    assert!(wrong(&[
        Value::Bytes(vec![0; 7]),
        values()[1].clone(),
        values()[2].clone()
    ]));
    assert!(wrong(&[
        Value::Witness(1),
        values()[1].clone(),
        values()[2].clone()
    ]));
    assert!(matches!(
        demo.verify(&PROOF, &[1]),
        Err(Error::Malformed(_))
    ));
    let many = [
        values()[0].clone(),
        Value::Scalars(vec![0; 5]),
        values()[2].clone(),
    ];
    assert_eq!(refused(demo.prove(&many).unwrap_err()).0, 3);
}

#[test]
fn a_draw_too_large_for_any_room() {
    let large = Protocol::builder(Suite::BabyBearElements, 1, "large")
        .step("x", Step::ChallengeScalars(u64::MAX))
        .build();
    assert_eq!(Both::of(large).verify(&[], &[]), Err(Error::OutOfMemory));
}

#[test]
fn many_values_want_more_room_than_is_given_first() {
    let many = Protocol::builder(Suite::BabyBearElements, 1, "many")
        .step("x", Step::ChallengeScalars(10_000))
        .build();
    let [Challenge::Scalars(drawn)] = &Both::of(many).verify(&[], &[]).unwrap().challenges[..]
    else {
        panic!()
    };
    assert_eq!(drawn.len(), 10_000);
}

#[test]
fn threads() {
    let demo = demo().build();
    thread::scope(|scope| {
        for _ in 0..4 {
            scope.spawn(|| {
                (0..500).for_each(|_| assert!(tealmuze::verify(&demo, &PROOF, &[]).is_ok()))
            });
        }
    });
}

// Each thread proves, accepts and refuses, so that calls of all kinds run at once, each with what was prepared for its thread
// by another one.
#[test]
fn prepared_protocols_in_several_threads() {
    let protocol = demo().build();
    let prepared = protocol.prepare().unwrap();
    let proved = prepared.prove(&values()).unwrap();
    let verified = prepared.verify(&PROOF, &[]).unwrap();
    let cut = prepared.verify(&PROOF[..20], &[]).unwrap_err();
    thread::scope(|scope| {
        for _ in 0..4 {
            let prepared = protocol.prepare().unwrap();
            let (proved, verified, cut) = (&proved, &verified, &cut);
            scope.spawn(move || {
                for _ in 0..200 {
                    assert_eq!(&prepared.prove(&values()).unwrap(), proved);
                    assert_eq!(&prepared.verify(&PROOF, &[]).unwrap(), verified);
                    assert_eq!(&prepared.verify(&PROOF[..20], &[]).unwrap_err(), cut);
                }
            });
        }
    });
}
