//! How long a proof takes to verify where the protocol is prepared, where its description is read at each call, and where it
//! is played step by step: 10,000 steps of a scalar each, as in the row `verifier, 10^4 scalar steps with seed` of
//! `crates/bench`; and how long it takes to prove, whole and step by step. Prints nanoseconds a step, the least of nine rounds
//! of so many proofs as the argument says. `cargo run --release --example speed 20`.
use std::time::Instant;
use tealmuze::{Error, Prepared, Protocol, Step, Suite, Value, Verified};

const STEPS: u64 = 10_000;
const ROUNDS: u64 = 9;

fn bench() -> Protocol {
    let mut builder = Protocol::builder(Suite::BabyBearBytes, 1, "bench");
    for _ in 0..STEPS {
        builder = builder.step("value", Step::Scalar);
    }
    builder.build()
}

// How many nanoseconds a step of so many verifications takes.
fn each(count: u64, verify: impl Fn() -> Result<Verified, Error>) -> f64 {
    let start = Instant::now();
    for _ in 0..count {
        assert_eq!(verify().unwrap().received.len() as u64, STEPS);
    }
    start.elapsed().as_secs_f64() * 1e9 / (count * STEPS) as f64
}

// Verifies a proof step by step.
fn verify_in_steps(protocol: &Prepared, proof: &[u8]) -> Result<Verified, Error> {
    let mut verifier = protocol.verifier(proof)?;
    let mut received = Vec::new();
    for _ in 0..STEPS {
        received.extend(verifier.step("value", &Step::Scalar, None)?.value);
    }
    verifier.finish()?;
    Ok(Verified {
        received,
        challenges: Vec::new(),
    })
}

fn prove_in_steps(protocol: &Prepared, values: &[Value]) -> Result<Vec<u8>, Error> {
    let mut prover = protocol.prover()?;
    for value in values {
        prover.step("value", &Step::Scalar, Some(value))?;
    }
    prover.finish()
}

// How many nanoseconds a step of so many proofs takes.
fn each_proof(count: u64, prove: impl Fn() -> Result<Vec<u8>, Error>) -> f64 {
    let start = Instant::now();
    for _ in 0..count {
        assert!(!prove().unwrap().is_empty());
    }
    start.elapsed().as_secs_f64() * 1e9 / (count * STEPS) as f64
}

fn main() {
    let count = std::env::args().nth(1).map_or(20, |it| it.parse().unwrap());
    let protocol = bench();
    let prepared = protocol.prepare().unwrap();
    let values: Vec<Value> = (0..STEPS).map(Value::Scalar).collect();
    let proof = prepared.prove(&values).unwrap().proof;
    let mut least = [f64::INFINITY; 5];
    for _ in 0..ROUNDS {
        // in turn, so that other work on the machine meets all
        let round = [
            each(count, || tealmuze::verify(&protocol, &proof, &[])),
            each(count, || prepared.verify(&proof, &[])),
            each(count, || verify_in_steps(&prepared, &proof)),
            each_proof(count, || Ok(prepared.prove(&values)?.proof)),
            each_proof(count, || prove_in_steps(&prepared, &values)),
        ];
        for (least, now) in least.iter_mut().zip(round) {
            *least = least.min(now);
        }
    }
    println!("verify, 10^4 scalar steps: {:.2}", least[0]);
    println!("verify prepared, 10^4 scalar steps: {:.2}", least[1]);
    println!("verifier, 10^4 scalar steps, one by one: {:.2}", least[2]);
    println!("prove prepared, 10^4 scalar steps: {:.2}", least[3]);
    println!("prover, 10^4 scalar steps, one by one: {:.2}", least[4]);
}
