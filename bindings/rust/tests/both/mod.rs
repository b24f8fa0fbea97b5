//! A protocol whose description is read at each call, and the same one prepared, played whole and step by step: they are
//! asked alike, and have to answer alike.
use tealmuze::{Error, Prepared, Protocol, Proved, Step, Value, Verified};

pub struct Both {
    pub protocol: Protocol,
    pub prepared: Result<Prepared, Error>,
    // With their labels, where they are played one by one too.
    pub steps: Option<Vec<(String, Step)>>,
}

impl Both {
    #[allow(dead_code)]
    pub fn of(protocol: Protocol) -> Both {
        let prepared = protocol.prepare();
        Both {
            protocol,
            prepared,
            steps: None,
        }
    }

    #[allow(dead_code)]
    pub fn of_steps(protocol: Protocol, steps: Vec<(String, Step)>) -> Both {
        Both {
            steps: Some(steps),
            ..Both::of(protocol)
        }
    }

    // Where the protocol is refused when it is prepared, that stands for each answer.
    pub fn verify(&self, proof: &[u8], carried: &[u64]) -> Result<Verified, Error> {
        let told = tealmuze::verify(&self.protocol, proof, carried);
        let prepared = self.prepared.as_ref().map_err(Error::clone);
        assert_eq!(prepared.and_then(|it| it.verify(proof, carried)), told);
        if let (Some(steps), Ok(prepared), false) =
            (&self.steps, &self.prepared, asks_nothing(&told))
        {
            assert_eq!(verify_in_steps(prepared, steps, proof, carried), told);
        }
        told
    }

    pub fn prove(&self, values: &[Value]) -> Result<Proved, Error> {
        let told = tealmuze::prove(&self.protocol, values);
        let prepared = self.prepared.as_ref().map_err(Error::clone);
        assert_eq!(prepared.and_then(|it| it.prove(values)), told);
        if let (Some(steps), Ok(prepared), false) =
            (&self.steps, &self.prepared, asks_nothing(&told))
        {
            assert_eq!(prove_in_steps(prepared, steps, values), told);
        }
        told
    }
}

fn asks_nothing<T>(told: &Result<T, Error>) -> bool {
    matches!(told, Err(Error::Malformed(_)))
}

fn verify_in_steps(
    prepared: &Prepared,
    steps: &[(String, Step)],
    proof: &[u8],
    carried: &[u64],
) -> Result<Verified, Error> {
    let mut verifier = prepared.verifier(proof)?;
    let (mut received, mut challenges) = (Vec::new(), Vec::new());
    let mut carried = carried.iter().copied();
    for (label, step) in steps {
        let witness = match step {
            Step::ObservePow(_) => carried.next(),
            _ => None,
        };
        let played = verifier.step(label, step, witness)?;
        received.extend(played.value);
        challenges.extend(played.challenge);
    }
    verifier.finish()?;
    Ok(Verified {
        received,
        challenges,
    })
}

fn sends(step: &Step) -> bool {
    matches!(
        step,
        Step::Salt(_)
            | Step::Bytes(_)
            | Step::Hint(_)
            | Step::BytesBounded(_)
            | Step::HintBounded(_)
            | Step::Scalar
            | Step::Scalars(_)
            | Step::ScalarsBounded(_)
            | Step::Extension
    )
}

fn prove_in_steps(
    prepared: &Prepared,
    steps: &[(String, Step)],
    values: &[Value],
) -> Result<Proved, Error> {
    let mut prover = prepared.prover()?;
    let (mut witnesses, mut carried, mut challenges) = (Vec::new(), Vec::new(), Vec::new());
    let mut values = values.iter();
    for (label, step) in steps {
        let value = if sends(step) { values.next() } else { None };
        let played = prover.step(label, step, value)?;
        if let Some(Value::Witness(witness)) = played.value {
            witnesses.push(witness);
            if matches!(step, Step::ObservePow(_)) {
                carried.push(witness);
            }
        }
        challenges.extend(played.challenge);
    }
    Ok(Proved {
        proof: prover.finish()?,
        witnesses,
        carried,
        challenges,
    })
}
