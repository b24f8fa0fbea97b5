//! Transcripts that are played step by step.
use crate::call::{answered, told, unread};
use crate::library::{tealmuze_free, tealmuze_prover, tealmuze_step, tealmuze_verifier};
use crate::value::{put_value, Challenge, Reader, Value};
use crate::{Error, Prepared, Step};
use alloc::vec::Vec;
use core::marker::PhantomData;
use core::ptr::{self, NonNull};

// What an answer of `tealmuze_prover` and of `tealmuze_verifier` has at most: a byte, a position, and a reason of 1000.
const MOST_TOLD: usize = 1009;

/// What is told of a step that was played.
#[derive(Clone, Debug, PartialEq, Eq)]
pub struct Played {
    /// What a verifier received, or the witness that a prover found.
    pub value: Option<Value>,
    /// What was drawn.
    pub challenge: Option<Challenge>,
}

// One side of a transcript, which is freed where it is dropped.
#[derive(Debug)]
struct Transcript<'p> {
    // What `tealmuze_prover` or `tealmuze_verifier` wrote.
    handle: NonNull<u8>,
    degree: usize,
    // The bytes of the last request and of the last answer, whose room serves the next ones.
    request: Vec<u8>,
    answer: Vec<u8>,
    protocol: PhantomData<&'p Prepared>,
}

impl Drop for Transcript<'_> {
    fn drop(&mut self) {
        // SAFETY: the pointer is one that the library handed out, and nothing calls with it after this.
        unsafe { tealmuze_free(self.handle.as_ptr()) }
    }
}

impl<'p> Transcript<'p> {
    // One that a call makes, which writes its pointer and an answer.
    fn of(
        prepared: &'p Prepared,
        mut make: impl FnMut(&mut *mut u8, &mut [u8]) -> usize,
    ) -> Result<Transcript<'p>, Error> {
        let mut handle = ptr::null_mut();
        let answer = answered(MOST_TOLD, |answer| make(&mut handle, answer))?;
        told(&answer)?;
        Ok(Transcript {
            handle: NonNull::new(handle).ok_or_else(unread)?,
            degree: prepared.degree(),
            request: Vec::new(),
            answer: Vec::new(),
            protocol: PhantomData,
        })
    }

    // Calls with the request, and with as much room as is wanted, and returns what is told.
    fn call(&mut self) -> Result<&[u8], Error> {
        loop {
            // SAFETY: the pointer is one that the library handed out, which is called with by this value alone, and each
            // other one and its count are those of a slice.
            let len = unsafe {
                tealmuze_step(
                    self.handle.as_ptr(),
                    self.request.as_ptr(),
                    self.request.len(),
                    self.answer.as_mut_ptr(),
                    self.answer.len(),
                )
            };
            if len <= self.answer.len() {
                return told(&self.answer[..len]);
            }
            let more = len - self.answer.len();
            self.answer
                .try_reserve(more)
                .map_err(|_| Error::OutOfMemory)?;
            self.answer.resize(len, 0);
        }
    }

    fn step(
        &mut self,
        label: &str,
        step: &Step,
        put_given: impl FnOnce(&mut Vec<u8>),
        value: impl FnMut(&mut Reader<'_>) -> Option<Value>,
    ) -> Result<Played, Error> {
        self.request.clear();
        step.put(label, &mut self.request);
        put_given(&mut self.request);
        let degree = self.degree;
        let mut from = Reader {
            left: self.call()?,
            degree,
        };
        let value = from.none_or_one(value).ok_or_else(unread)?;
        let challenge = from.none_or_one(Reader::challenge).ok_or_else(unread)?;
        Ok(Played { value, challenge })
    }

    fn end(&mut self) -> Result<&[u8], Error> {
        self.request.clear();
        self.call()
    }
}

/// A prover that plays a protocol step by step, and writes the proof.
///
/// The steps are those of the protocol, in order. A step whose value both sides know may have another value than the
/// protocol's description, of the same kind and length: it is this one that is observed.
///
/// ```
/// use tealmuze::{Protocol, Step, Suite, Value};
///
/// let protocol = Protocol::builder(Suite::BabyBearElements, 1, "example")
///     .step("value", Step::Scalar)
///     .step("alpha", Step::ChallengeScalar)
///     .step("answer", Step::Scalar)
///     .build()
///     .prepare()?;
/// let mut prover = protocol.prover()?;
/// prover.step("value", &Step::Scalar, Some(&Value::Scalar(5)))?;
/// let alpha = prover.step("alpha", &Step::ChallengeScalar, None)?.challenge;
/// prover.step("answer", &Step::Scalar, Some(&Value::Scalar(7)))?;
/// let proof = prover.finish()?;
///
/// let mut verifier = protocol.verifier(&proof)?;
/// let value = verifier.step("value", &Step::Scalar, None)?.value;
/// assert_eq!(value, Some(Value::Scalar(5)));
/// assert_eq!(verifier.step("alpha", &Step::ChallengeScalar, None)?.challenge, alpha);
/// verifier.step("answer", &Step::Scalar, None)?;
/// verifier.finish()?;
/// # Ok::<(), tealmuze::Error>(())
/// ```
#[derive(Debug)]
pub struct Prover<'p> {
    transcript: Transcript<'p>,
}

impl Prover<'_> {
    /// Plays the next step, with the value that it sends, if it sends one. A witness is found, and told.
    ///
    /// A step that is [refused](Error::Refused) is the last one that is played. After [`Error::Malformed`] nothing was
    /// played: the label is not that of the protocol's next step, the suite plays no such step, or the value is not one of
    /// it. After [`Error::OutOfMemory`] the step was played or not, and in the first case it is the last one.
    pub fn step(
        &mut self,
        label: &str,
        step: &Step,
        value: Option<&Value>,
    ) -> Result<Played, Error> {
        let put_given = |to: &mut Vec<u8>| {
            if let Some(value) = value {
                put_value(to, value);
            }
        };
        self.transcript.step(label, step, put_given, |from| {
            Some(Value::Witness(from.number()?))
        })
    }

    /// Ends the transcript, all of whose steps were played, and returns the proof.
    pub fn finish(mut self) -> Result<Vec<u8>, Error> {
        let degree = self.transcript.degree;
        let mut from = Reader {
            left: self.transcript.end()?,
            degree,
        };
        from.counted().ok_or_else(unread)
    }
}

/// A verifier that plays a protocol step by step, and reads the proof, of which it has a copy.
///
/// The steps are those of the protocol, in order, as of a [`Prover`].
#[derive(Debug)]
pub struct Verifier<'p> {
    transcript: Transcript<'p>,
}

impl Verifier<'_> {
    /// Plays the next step, with the witness that the caller carries to it, which [`Step::ObservePow`] wants.
    ///
    /// The errors are those of [`Prover::step`].
    pub fn step(
        &mut self,
        label: &str,
        step: &Step,
        carried: Option<u64>,
    ) -> Result<Played, Error> {
        let put_given = |to: &mut Vec<u8>| {
            if let Some(witness) = carried {
                to.extend_from_slice(&witness.to_le_bytes());
            }
        };
        self.transcript
            .step(label, step, put_given, |from| from.value())
    }

    /// Ends the transcript: all of its steps have to be played, and the whole proof read. Then the proof is accepted.
    pub fn finish(mut self) -> Result<(), Error> {
        self.transcript.end()?;
        Ok(())
    }
}

impl Prepared {
    /// A prover of the protocol before its first step.
    pub fn prover(&self) -> Result<Prover<'_>, Error> {
        let transcript = Transcript::of(self, |handle, answer| {
            // SAFETY: the first pointer is one that `tealmuze_prepare` wrote, the second may be written, and the last and
            // its count are those of a slice.
            unsafe { tealmuze_prover(self.kept(), handle, answer.as_mut_ptr(), answer.len()) }
        })?;
        Ok(Prover { transcript })
    }

    /// A verifier of a proof of the protocol before its first step. The proof is copied.
    pub fn verifier(&self, proof: &[u8]) -> Result<Verifier<'_>, Error> {
        let transcript = Transcript::of(self, |handle, answer| {
            // SAFETY: as of `prover`.
            unsafe {
                tealmuze_verifier(
                    self.kept(),
                    proof.as_ptr(),
                    proof.len(),
                    handle,
                    answer.as_mut_ptr(),
                    answer.len(),
                )
            }
        })?;
        Ok(Verifier { transcript })
    }
}
