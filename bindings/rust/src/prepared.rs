//! Protocols that are prepared for many proofs.
use crate::call::{answered, proved, room_for, told, unread, verified, Proved, Verified};
use crate::library::{tealmuze_prepare, tealmuze_prove_prepared, tealmuze_verify_prepared};
use crate::value::{encoded, Value};
use crate::{Error, Protocol};
use core::ptr::{self, NonNull};

// What an answer of `tealmuze_prepare` has at most: a byte, and a reason of 1000.
const MOST_TOLD: usize = 1001;

/// A protocol that is prepared for many proofs: its description was read, and its pattern made.
///
/// Its calls answer what [`verify`](crate::verify) and [`prove`](crate::prove) answer of the protocol, and read no
/// description. It may move to another thread, but only one at a time may call with it: a program of several threads prepares
/// the protocol once for each. What is prepared is kept for as long as the program runs, so it is not prepared once for each
/// proof.
///
/// ```
/// use tealmuze::{Protocol, Step, Suite, Value};
///
/// let protocol = Protocol::builder(Suite::BabyBearBytes, 1, "example")
///     .step("values", Step::Scalars(2))
///     .step("alpha", Step::ChallengeScalar)
///     .build();
/// let prepared = protocol.prepare()?;
/// let proved = prepared.prove(&[Value::Scalars(vec![1, 2])])?;
/// let verified = prepared.verify(&proved.proof, &proved.carried)?;
/// assert_eq!(verified.challenges, proved.challenges);
/// # Ok::<(), tealmuze::Error>(())
/// ```
///
/// Two threads share none:
///
/// ```compile_fail,E0277
/// fn share<T: Sync>(_: T) {}
///
/// let protocol = tealmuze::Protocol::builder(tealmuze::Suite::BabyBearBytes, 1, "example").build();
/// share(protocol.prepare()?);
/// # Ok::<(), tealmuze::Error>(())
/// ```
#[derive(Debug)]
pub struct Prepared {
    protocol: Protocol,
    // What `tealmuze_prepare` wrote.
    kept: NonNull<u8>,
    // The room that the answer to a proof of no bytes wants, from which that of each other call follows: none is made in
    // vain, with too little.
    room: usize,
}

// SAFETY: what the pointer leads to is not freed, belongs to no thread, and is reached by this value alone. (It counts its
// owners with no atomic operation, so that two threads may not call with it at once: it is not `Sync`.)
unsafe impl Send for Prepared {}

impl Protocol {
    /// Prepares the protocol for many proofs. What is made is kept for as long as the program runs: call this once for a
    /// protocol, and not once for each proof.
    ///
    /// The error is [`Error::Malformed`] where the description is none, with the text that [`verify`](crate::verify) gives,
    /// or [`Error::OutOfMemory`]. Nothing is kept then.
    pub fn prepare(&self) -> Result<Prepared, Error> {
        let description = self.description();
        let mut kept = ptr::null_mut();
        let answer = answered(MOST_TOLD, |answer| {
            // SAFETY: each pointer and count are those of a slice, the description's for as long as the program runs, and
            // `kept` is a pointer that may be written.
            unsafe {
                tealmuze_prepare(
                    description.as_ptr(),
                    description.len(),
                    &mut kept,
                    answer.as_mut_ptr(),
                    answer.len(),
                )
            }
        })?;
        told(&answer)?;
        let mut prepared = Prepared {
            protocol: *self,
            kept: NonNull::new(kept).ok_or_else(unread)?,
            room: 0,
        };
        prepared.room = prepared.call_verify(&[], &[], &mut []);
        Ok(prepared)
    }
}

impl Prepared {
    /// What `tealmuze_prepare` wrote.
    pub(crate) fn kept(&self) -> *mut u8 {
        self.kept.as_ptr()
    }

    /// How many coefficients an element of the extension has.
    pub(crate) fn degree(&self) -> usize {
        self.protocol.degree()
    }

    /// Verifies a proof of the protocol, with the witnesses that the caller carries to its `ObservePow` steps, as
    /// [`verify`](crate::verify) does.
    pub fn verify(&self, proof: &[u8], carried: &[u64]) -> Result<Verified, Error> {
        let room = room_for(proof.len(), self.room);
        verified(&self.protocol, room, |answer| {
            self.call_verify(proof, carried, answer)
        })
    }

    /// Proves the protocol with the values that its steps send, in order, as [`prove`](crate::prove) does.
    pub fn prove(&self, values: &[Value]) -> Result<Proved, Error> {
        let values = encoded(values);
        let room = room_for(values.len(), self.room);
        proved(&self.protocol, room, |answer| {
            self.call_prove(&values, answer)
        })
    }

    fn call_verify(&self, proof: &[u8], carried: &[u64], answer: &mut [u8]) -> usize {
        // SAFETY: the first pointer is one that `tealmuze_prepare` wrote, and each other one and its count are those of a
        // slice.
        unsafe {
            tealmuze_verify_prepared(
                self.kept.as_ptr(),
                proof.as_ptr(),
                proof.len(),
                carried.as_ptr(),
                carried.len(),
                answer.as_mut_ptr(),
                answer.len(),
            )
        }
    }

    fn call_prove(&self, values: &[u8], answer: &mut [u8]) -> usize {
        // SAFETY: as of `call_verify`.
        unsafe {
            tealmuze_prove_prepared(
                self.kept.as_ptr(),
                values.as_ptr(),
                values.len(),
                answer.as_mut_ptr(),
                answer.len(),
            )
        }
    }
}
