//! Plays what the Rust crate answered, row by row: the repository's files of rows, which `docs/VECTORS.md` describes. Each is
//! also played with the protocol prepared, whole and step by step.
mod both;

use both::Both;
use std::fs;
use tealmuze::{Builder, Challenge, Error, Kind, Protocol, Step, Suite, Value};

const FILES: [&str; 3] = ["suites.txt", "whole_runs.txt", "poseidon2_runs.txt"];

// The suite of a row, and how many coefficients an element of its extension has.
fn world(token: &str) -> Option<(Suite, usize)> {
    match token {
        "hash" => Some((Suite::BabyBearBytes, 4)),
        "ser32" => Some((Suite::BabyBearElements, 4)),
        "ser64" => Some((Suite::GoldilocksElements, 1)),
        "keccak_hash" => Some((Suite::BabyBearBytesKeccak, 4)),
        "keccak_ser32" => Some((Suite::BabyBearElementsKeccak, 4)),
        "keccak_ser64" => Some((Suite::GoldilocksElementsKeccak, 1)),
        "poseidon2_baby_bear" => Some((Suite::BabyBearPoseidon2, 4)),
        "poseidon2_goldilocks" => Some((Suite::GoldilocksPoseidon2, 1)),
        _ => None,
    }
}

fn hex(digits: &str) -> Vec<u8> {
    let byte = |at: usize| u8::from_str_radix(&digits[at..at + 2], 16).unwrap();
    (0..digits.len() / 2).map(|i| byte(2 * i)).collect()
}

fn numbers(words: &[&str]) -> Vec<u64> {
    words.iter().map(|it| it.parse().unwrap()).collect()
}

fn kind(token: &str) -> Kind {
    match token {
        "protocol" => Kind::Protocol,
        "public" => Kind::Public,
        "message" => Kind::Message,
        "hint" => Kind::Hint,
        "challenge" => Kind::Challenge,
        "pow" => Kind::Pow,
        "salt" => Kind::Salt,
        _ => panic!("kind {token}"),
    }
}

// The step whose value is not handed to a prover, of so many bytes or scalars where it says so.
fn unhanded(name: &str, len: &[&str]) -> Option<Step> {
    let len = numbers(len).first().copied();
    Some(match (name, len) {
        ("salt", Some(len)) => Step::Salt(len),
        ("bytes", Some(len)) => Step::Bytes(len),
        ("hint", Some(len)) => Step::Hint(len),
        ("bytesb", Some(max)) => Step::BytesBounded(max),
        ("hintb", Some(max)) => Step::HintBounded(max),
        ("sc", None) => Step::Scalar,
        ("scs", Some(n)) => Step::Scalars(n),
        ("scb", Some(max)) => Step::ScalarsBounded(max),
        ("ext", None) => Step::Extension,
        _ => return None,
    })
}

// The step of these words, and what is sent at it. None where it has a rule that refuses some candidates.
fn step(words: &[&str], degree: usize) -> Option<(Step, Option<Value>)> {
    let (name, rest) = (words[0], &words[2..]);
    if let Some(at) = rest.iter().position(|it| *it == "#") {
        let len = [&rest[..at], &rest[at + 1..]].concat();
        return unhanded(name, &len).map(|step| (step, None));
    }
    let first = || rest[0].parse::<u64>().unwrap();
    let bytes = |at: usize| hex(&rest[at..].concat());
    let elements = |words: &[&str]| {
        numbers(words)
            .chunks(degree)
            .map(<[u64]>::to_vec)
            .collect::<Vec<_>>()
    };
    let is_all = |at: usize| rest[at] == "0" && rest[at + 1] != "0";
    Some(match name {
        "begin" => (Step::Begin(kind(rest[0])), None),
        "end" => (Step::End(kind(rest[0])), None),
        "salt" => (
            Step::Salt(bytes(0).len() as u64),
            Some(Value::Bytes(bytes(0))),
        ),
        "bytes" => (
            Step::Bytes(bytes(0).len() as u64),
            Some(Value::Bytes(bytes(0))),
        ),
        "hint" => (
            Step::Hint(bytes(0).len() as u64),
            Some(Value::Bytes(bytes(0))),
        ),
        "bytesb" => (Step::BytesBounded(first()), Some(Value::Bytes(bytes(1)))),
        "hintb" => (Step::HintBounded(first()), Some(Value::Bytes(bytes(1)))),
        "pub" => (Step::PublicScalar(first()), None),
        "pubs" => (Step::PublicScalars(numbers(rest)), None),
        "pubb" => (
            Step::PublicScalarsBounded(first(), numbers(&rest[1..])),
            None,
        ),
        "sc" => (Step::Scalar, Some(Value::Scalar(first()))),
        "scs" => (
            Step::Scalars(rest.len() as u64),
            Some(Value::Scalars(numbers(rest))),
        ),
        "scb" => (
            Step::ScalarsBounded(first()),
            Some(Value::Scalars(numbers(&rest[1..]))),
        ),
        "ext" => (Step::Extension, Some(Value::Extension(numbers(rest)))),
        "oext" => (Step::ObserveExtension(numbers(rest)), None),
        "oexts" => (Step::ObserveExtensions(elements(rest)), None),
        "oextb" => (
            Step::ObserveExtensionsBounded(first(), elements(&rest[1..])),
            None,
        ),
        "opq" if rest.len() > 1 || rest[0].len() < 64 => (Step::Opaque(numbers(rest)), None),
        "opq" => (
            Step::Opaque(hex(rest[0]).into_iter().map(u64::from).collect()),
            None,
        ),
        "chs" => (Step::ChallengeScalar, None),
        "chv" => (Step::ChallengeScalars(first()), None),
        "che" => (Step::ChallengeExtension, None),
        "chev" => (Step::ChallengeExtensions(first()), None),
        "chr" if is_all(1) => (Step::ChallengeExtensions(first()), None),
        "cb" => (
            Step::ChallengeBits {
                width: first(),
                n: rest[1].parse().unwrap(),
            },
            None,
        ),
        "cu" => (
            Step::ChallengeUniformBits {
                width: first(),
                n: rest[1].parse().unwrap(),
            },
            None,
        ),
        "cur" if is_all(2) => (
            Step::ChallengeUniformBits {
                width: first(),
                n: rest[1].parse().unwrap(),
            },
            None,
        ),
        "pow" => (Step::Pow(first()), None),
        "opow" => (Step::ObservePow(first()), None),
        _ => return None,
    })
}

// A row: the protocol, the values, what stands after the steps, and the answer.
struct Row<'a> {
    protocol: Both,
    values: Vec<Value>,
    after: Vec<(&'a str, &'a str)>,
    answer: &'a str,
}

fn row(line: &str) -> Option<Row<'_>> {
    let [head, script, answer] = line.split(" | ").collect::<Vec<_>>()[..] else {
        return None;
    };
    let words: Vec<&str> = head.split_whitespace().collect();
    let (suite, degree) = world(words.get(1)?)?;
    let mut builder: Builder = Protocol::builder(suite, words[2].parse().unwrap(), words[3]);
    for chunk in &words[4..] {
        builder = builder.instance(&hex(chunk));
    }
    let (mut values, mut after, mut steps) = (Vec::new(), Vec::new(), Vec::new());
    for entry in script.split(" ; ").filter(|it| !it.is_empty()) {
        let words: Vec<&str> = entry.split_whitespace().collect();
        if ["narg", "flip", "cut", "more", "carried", "next"].contains(&words[0]) {
            after.push((words[0], entry.split_once(' ').map_or("", |it| it.1)));
            continue;
        }
        let (step, value) = step(&words, degree)?;
        steps.push((words[1].to_string(), step.clone()));
        builder = builder.step(words[1], step);
        values.extend(value);
    }
    Some(Row {
        protocol: Both::of_steps(builder.build(), steps),
        values,
        after,
        answer,
    })
}

// The proof that is verified: the prover's own, as it was changed, or another.
fn changed(mut proof: Vec<u8>, after: &[(&str, &str)]) -> Vec<u8> {
    for (name, rest) in after {
        let words: Vec<&str> = rest.split_whitespace().collect();
        match *name {
            "narg" => proof = hex(&words.concat()),
            "flip" if !proof.is_empty() => {
                let place = words[0].parse::<usize>().unwrap() % proof.len();
                proof[place] ^= words[1].parse::<u8>().unwrap();
            }
            "cut" => proof.truncate(proof.len().saturating_sub(words[0].parse().unwrap())),
            "more" => proof.extend(hex(rest)),
            _ => {}
        }
    }
    proof
}

fn words_after<'a>(name: &str, answer: &'a str) -> Vec<&'a str> {
    let found = answer.split(" ; ").find_map(|it| it.strip_prefix(name));
    found.map_or(Vec::new(), |it| it.split_whitespace().collect())
}

// What was drawn, as a row writes it.
fn drawn(challenges: &[Challenge]) -> Vec<String> {
    let joined = |it: &Vec<u64>| it.iter().map(u64::to_string).collect::<Vec<_>>().join(",");
    challenges
        .iter()
        .flat_map(|it| match it {
            Challenge::Scalars(xs) | Challenge::Bits(xs) => {
                xs.iter().map(u64::to_string).collect::<Vec<_>>()
            }
            Challenge::Extensions(xs) => xs.iter().map(joined).collect(),
        })
        .collect()
}

// The position and the reason of a refusal, as a row writes them.
fn refusal(error: Error) -> String {
    match error {
        Error::Refused { position, reason } => {
            let reason = reason
                .strip_prefix("bad proof shape: ")
                .unwrap_or(&reason)
                .to_string();
            format!("refused {position} {reason}")
        }
        other => other.to_string(),
    }
}

fn check_prover(row: &Row<'_>, prover: &str) -> (Vec<u8>, Vec<u64>) {
    match row.protocol.prove(&row.values) {
        Ok(proved) => {
            assert_eq!(proved.proof, hex(&words_after("wire", prover).concat()));
            assert_eq!(drawn(&proved.challenges), words_after("draws", prover));
            assert_eq!(proved.witnesses, numbers(&words_after("witnesses", prover)));
            (proved.proof, proved.carried)
        }
        Err(error) => {
            let told = refusal(error);
            let told = told.as_str();
            let wanted = prover.split(" ; ").next().unwrap();
            assert!(
                wanted == told || prover == "not handed",
                "{told} in place of {wanted}"
            );
            (Vec::new(), Vec::new())
        }
    }
}

fn check(row: &Row<'_>) {
    if row.answer == "not admitted" {
        assert!(matches!(
            row.protocol.verify(&[], &[]),
            Err(Error::Malformed(_))
        ));
        return;
    }
    let (prover, verifier) = row
        .answer
        .split_once(" ; verify ")
        .unwrap_or((row.answer, ""));
    let (proof, mut carried) = check_prover(row, prover);
    if let Some((_, given)) = row.after.iter().find(|it| it.0 == "carried") {
        carried = numbers(&given.split_whitespace().collect::<Vec<_>>());
    }
    match row.protocol.verify(&changed(proof, &row.after), &carried) {
        Ok(verified) => {
            let wanted = verifier.strip_prefix("accepted").expect(verifier);
            let wanted = wanted
                .split("next")
                .next()
                .unwrap()
                .split_whitespace()
                .collect::<Vec<_>>();
            assert_eq!(drawn(&verified.challenges), wanted);
        }
        Err(Error::Malformed(reason)) => {
            assert!(
                verifier == "not carried" && reason.starts_with("carried: "),
                "{reason}"
            );
        }
        Err(error) => assert_eq!(refusal(error), verifier.split(" ; ").next().unwrap()),
    }
}

#[test]
fn rows_of_the_rust_crate() {
    let mut played = 0;
    for name in FILES {
        let path = format!(
            "{}/../../crates/conformance_suites/data/{name}",
            env!("CARGO_MANIFEST_DIR")
        );
        for (number, line) in fs::read_to_string(path).unwrap().lines().enumerate() {
            if let Some(row) = row(line).filter(|_| !line.starts_with('#')) {
                println!("{name}, line {}", number + 1);
                check(&row);
                played += 1;
            }
        }
    }
    assert!(played > 600, "{played} rows");
}
