//! Transcripts that are played step by step: what is refused, and what stands after that. (The rows of `rows.rs` are played
//! step by step, too.)
use tealmuze::{Challenge, Error, Prepared, Protocol, Step, Suite, Value};

const SUITES: [Suite; 8] = [
    Suite::BabyBearBytes,
    Suite::BabyBearElements,
    Suite::BabyBearBytesKeccak,
    Suite::BabyBearElementsKeccak,
    Suite::GoldilocksElements,
    Suite::GoldilocksElementsKeccak,
    Suite::BabyBearPoseidon2,
    Suite::GoldilocksPoseidon2,
];

// A public scalar, a scalar that is sent, a draw, and a scalar that answers it.
fn dialogue(suite: Suite) -> Prepared {
    Protocol::builder(suite, 1, "dialogue")
        .step("input", Step::PublicScalar(0))
        .step("value", Step::Scalar)
        .step("alpha", Step::ChallengeScalar)
        .step("answer", Step::Scalar)
        .build()
        .prepare()
        .unwrap()
}

fn scalar_of(challenge: Option<Challenge>) -> u64 {
    match challenge {
        Some(Challenge::Scalars(drawn)) if drawn.len() == 1 => drawn[0],
        other => panic!("{other:?}"),
    }
}

// What is sent last depends on what was drawn, and the public scalar is not the description's.
fn proof_of(protocol: &Prepared, input: u64) -> Result<(u64, Vec<u8>), Error> {
    let mut prover = protocol.prover()?;
    prover.step("input", &Step::PublicScalar(input), None)?;
    prover.step("value", &Step::Scalar, Some(&Value::Scalar(5)))?;
    let alpha = scalar_of(
        prover
            .step("alpha", &Step::ChallengeScalar, None)?
            .challenge,
    );
    prover.step("answer", &Step::Scalar, Some(&Value::Scalar(alpha)))?;
    Ok((alpha, prover.finish()?))
}

fn answer_in(protocol: &Prepared, input: u64, proof: &[u8]) -> Result<(u64, Value), Error> {
    let mut verifier = protocol.verifier(proof)?;
    verifier.step("input", &Step::PublicScalar(input), None)?;
    verifier.step("value", &Step::Scalar, None)?;
    let alpha = verifier.step("alpha", &Step::ChallengeScalar, None)?;
    let answer = verifier.step("answer", &Step::Scalar, None)?.value.unwrap();
    verifier.finish()?;
    Ok((scalar_of(alpha.challenge), answer))
}

#[test]
fn what_is_sent_depends_on_what_was_drawn() {
    for suite in SUITES {
        let protocol = dialogue(suite);
        let (alpha, proof) = proof_of(&protocol, 9).unwrap();
        let told = answer_in(&protocol, 9, &proof).unwrap();
        assert_eq!(told, (alpha, Value::Scalar(alpha)), "{suite:?}");
        // another input gives another challenge
        assert_ne!(answer_in(&protocol, 8, &proof).unwrap().0, alpha);
        // the whole call proves the same of the description's input
        let (alpha, proof) = proof_of(&protocol, 0).unwrap();
        let values = [Value::Scalar(5), Value::Scalar(alpha)];
        assert_eq!(protocol.prove(&values).unwrap().proof, proof);
    }
}

fn refused(told: Result<impl Sized, Error>) -> (u64, String) {
    match told {
        Err(Error::Refused { position, reason }) => (position, reason),
        Err(other) => panic!("{other}"),
        Ok(_) => panic!("not refused"),
    }
}

#[test]
fn a_refused_step_is_the_last() {
    let protocol = dialogue(Suite::BabyBearElements);
    let mut prover = protocol.prover().unwrap();
    prover.step("input", &Step::PublicScalar(1), None).unwrap();
    let (position, reason) = refused(prover.step("value", &Step::ChallengeScalar, None));
    assert_eq!(position, 1);
    assert!(reason.contains("value"), "{reason}");
    let value = Value::Scalar(5);
    assert_eq!(
        refused(prover.step("value", &Step::Scalar, Some(&value))).0,
        1
    );
    assert_eq!(refused(prover.finish()).0, 1);
}

#[test]
fn what_is_not_asked_rightly_is_not_played() {
    let protocol = dialogue(Suite::BabyBearElements);
    let mut prover = protocol.prover().unwrap();
    let mut unasked = |label: &str, step: &Step, value: Option<Value>| match prover.step(
        label,
        step,
        value.as_ref(),
    ) {
        Err(Error::Malformed(reason)) => reason,
        other => panic!("{other:?}"),
    };
    let other_label = unasked("other", &Step::PublicScalar(1), None);
    assert_eq!(
        other_label,
        "label: the protocol has another step next, or none"
    );
    let order = unasked("input", &Step::PublicScalar(2013265921), None);
    assert_eq!(order, "steps[0]: no step of this suite has this form");
    let bits = unasked("input", &Step::Pow(40), None);
    assert_eq!(
        bits,
        "steps: the suite does not play one of them, or not with so many bits"
    );
    let handed = unasked("input", &Step::PublicScalar(1), Some(Value::Scalar(1)));
    assert_eq!(
        handed,
        "values: expected one for each step that sends one, of its type and length"
    );
    // after all that, the first step may be played
    prover.step("input", &Step::PublicScalar(1), None).unwrap();
    let value = Value::Scalar(5);
    prover.step("value", &Step::Scalar, Some(&value)).unwrap();
    let carried =
        protocol
            .verifier(&[5, 0, 0, 0])
            .unwrap()
            .step("input", &Step::PublicScalar(1), Some(1));
    assert!(matches!(carried, Err(Error::Malformed(_))));
}

#[test]
fn an_end_that_comes_too_early() {
    let protocol = dialogue(Suite::GoldilocksPoseidon2);
    let (_, proof) = proof_of(&protocol, 9).unwrap();
    assert_eq!(refused(protocol.prover().unwrap().finish()).0, 0);
    assert_eq!(refused(protocol.verifier(&proof).unwrap().finish()).0, 0);
    for len in 0..proof.len() {
        let (position, _) = refused(answer_in(&protocol, 9, &proof[..len]));
        assert_eq!(position, if len < 8 { 1 } else { 3 });
    }
    let more = [&proof[..], &[0]].concat();
    assert_eq!(refused(answer_in(&protocol, 9, &more)).0, 4);
}

#[test]
fn transcripts_that_are_dropped_in_between() {
    for suite in SUITES {
        let protocol = dialogue(suite);
        for _ in 0..100 {
            let mut prover = protocol.prover().unwrap();
            prover.step("input", &Step::PublicScalar(1), None).unwrap();
            let _verifier = protocol.verifier(&[0; 100]).unwrap();
        }
    }
}
