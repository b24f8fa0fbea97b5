//! The calls, and what their answers tell.
use crate::library::{tealmuze_prove, tealmuze_verify};
use crate::value::{encoded, Challenge, Reader, Value};
use crate::{Error, Protocol};
use alloc::{string::String, vec::Vec};

/// What a verifier that accepted a proof has received and drawn.
#[derive(Clone, Debug, PartialEq, Eq)]
pub struct Verified {
    /// One for each step whose value the proof carries, in order.
    pub received: Vec<Value>,
    /// One for each step that draws, in order.
    pub challenges: Vec<Challenge>,
}

/// What a prover has written, found and drawn.
#[derive(Clone, Debug, PartialEq, Eq)]
pub struct Proved {
    /// The bytes of the proof.
    pub proof: Vec<u8>,
    /// The witnesses of all proofs of work, in order.
    pub witnesses: Vec<u64>,
    /// Those of them that the proof does not carry: the verifier is given them.
    pub carried: Vec<u64>,
    /// One for each step that draws, in order.
    pub challenges: Vec<Challenge>,
}

// More room than this is not given: an answer that may have as many bytes draws or carries too much.
const MOST_ROOM: usize = 1 << 30;

/// Calls with this much room for the answer. With too little a call plays nothing and says how much it wants.
pub(crate) fn answered(
    mut room: usize,
    mut call: impl FnMut(&mut [u8]) -> usize,
) -> Result<Vec<u8>, Error> {
    while room <= MOST_ROOM {
        let mut answer = Vec::new();
        answer
            .try_reserve_exact(room)
            .map_err(|_| Error::OutOfMemory)?;
        answer.resize(room, 0);
        let wanted = call(&mut answer);
        if wanted <= room {
            answer.truncate(wanted);
            return Ok(answer);
        }
        room = wanted;
    }
    Err(Error::OutOfMemory)
}

/// The room for an answer to so many bytes of a proof or of values, where one to no bytes has this much: the library wants 8
/// for each.
pub(crate) fn room_for(bytes: usize, for_none: usize) -> usize {
    for_none.saturating_add(bytes.saturating_mul(8))
}

// The room that is given first, with which most protocols are played by one call: a step wants 40 bytes, and has 17 at least
// in a description. Many draws want more, and then the description is read twice.
fn first_room(protocol: &Protocol, bytes: usize) -> usize {
    let steps = protocol.description().len().saturating_mul(3);
    room_for(bytes, steps.saturating_add(2048))
}

/// What stands after the first byte, where that says that all went well.
pub(crate) fn told(answer: &[u8]) -> Result<&[u8], Error> {
    match answer {
        [0, told @ ..] => Ok(told),
        [1, told @ ..] => match told.split_first_chunk() {
            Some((position, reason)) => Err(Error::Refused {
                position: u64::from_le_bytes(*position),
                reason: text(reason),
            }),
            None => Err(unread()),
        },
        [2, reason @ ..] => Err(Error::Malformed(text(reason))),
        [3] => Err(Error::OutOfMemory),
        _ => Err(unread()),
    }
}

fn text(bytes: &[u8]) -> String {
    String::from_utf8_lossy(bytes).into_owned()
}

/// The library answers no such bytes, as its contract says.
pub(crate) fn unread() -> Error {
    Error::Malformed(String::from("an answer that is none"))
}

/// What a call that verifies a proof tells, with this much room for the answer.
pub(crate) fn verified(
    protocol: &Protocol,
    room: usize,
    call: impl FnMut(&mut [u8]) -> usize,
) -> Result<Verified, Error> {
    let answer = answered(room, call)?;
    let mut from = Reader {
        left: told(&answer)?,
        degree: protocol.degree(),
    };
    (|| {
        let received = from.list(Reader::value)?;
        let challenges = from.list(Reader::challenge)?;
        Some(Verified {
            received,
            challenges,
        })
    })()
    .ok_or_else(unread)
}

/// What a call that proves values tells, with this much room for the answer.
pub(crate) fn proved(
    protocol: &Protocol,
    room: usize,
    call: impl FnMut(&mut [u8]) -> usize,
) -> Result<Proved, Error> {
    let answer = answered(room, call)?;
    let mut from = Reader {
        left: told(&answer)?,
        degree: protocol.degree(),
    };
    (|| {
        let proof = from.counted()?;
        let witnesses = from.list(Reader::number)?;
        let carried = from.list(Reader::number)?;
        let challenges = from.list(Reader::challenge)?;
        Some(Proved {
            proof,
            witnesses,
            carried,
            challenges,
        })
    })()
    .ok_or_else(unread)
}

/// Verifies a proof of a protocol, with the witnesses that the caller carries to its `ObservePow` steps.
///
/// Each call reads the description. For many proofs of one protocol [`Protocol::prepare`] reads it once.
pub fn verify(protocol: &Protocol, proof: &[u8], carried: &[u64]) -> Result<Verified, Error> {
    let description = protocol.description();
    verified(protocol, first_room(protocol, proof.len()), |answer| {
        // SAFETY: each pointer and count are those of a slice that is borrowed for the call, the description's for good; the
        // declaration is the library's, which requires nothing else.
        unsafe {
            tealmuze_verify(
                description.as_ptr(),
                description.len(),
                proof.as_ptr(),
                proof.len(),
                carried.as_ptr(),
                carried.len(),
                answer.as_mut_ptr(),
                answer.len(),
            )
        }
    })
}

/// Proves a protocol with the values that its steps send, in order. Witnesses are found.
///
/// Each call reads the description. For many proofs of one protocol [`Protocol::prepare`] reads it once.
pub fn prove(protocol: &Protocol, values: &[Value]) -> Result<Proved, Error> {
    let description = protocol.description();
    let values = encoded(values);
    proved(protocol, first_room(protocol, values.len()), |answer| {
        // SAFETY: as of `verify`.
        unsafe {
            tealmuze_prove(
                description.as_ptr(),
                description.len(),
                values.as_ptr(),
                values.len(),
                answer.as_mut_ptr(),
                answer.len(),
            )
        }
    })
}
