//! What is played: a suite, a version, a name, an instance, and steps.
use alloc::{boxed::Box, vec, vec::Vec};

/// Which challenger, over which field.
#[derive(Clone, Copy, Debug, PartialEq, Eq)]
#[repr(u8)]
#[non_exhaustive]
pub enum Suite {
    /// `HashChallenger` of bytes with SHA-256; scalars of BabyBear, observed as bytes; the extension of degree 4. There
    /// are no bits and no proofs of work.
    BabyBearBytes = 0,
    /// `SerializingChallenger32` over that; scalars of BabyBear, observed as elements; the extension of degree 4.
    BabyBearElements = 1,
    /// As [`Suite::BabyBearBytes`], with Keccak-256.
    BabyBearBytesKeccak = 2,
    /// As [`Suite::BabyBearElements`], with Keccak-256.
    BabyBearElementsKeccak = 3,
    /// `SerializingChallenger64` over a `HashChallenger` of bytes with SHA-256; scalars of Goldilocks, observed as
    /// elements; the field is its own extension.
    GoldilocksElements = 4,
    /// As [`Suite::GoldilocksElements`], with Keccak-256.
    GoldilocksElementsKeccak = 5,
    /// `DuplexChallenger` of 16 cells of BabyBear, 8 of them the rate, with Poseidon2; the extension of degree 4.
    BabyBearPoseidon2 = 6,
    /// `DuplexChallenger` of 8 cells of Goldilocks, 4 of them the rate, with Poseidon2; the field is its own extension.
    GoldilocksPoseidon2 = 7,
}

/// What the steps of a container are.
#[derive(Clone, Copy, Debug, PartialEq, Eq)]
#[repr(u8)]
pub enum Kind {
    /// Steps of any kind.
    Protocol = 0,
    /// Values that both sides know.
    Public = 1,
    /// Values that are sent and absorbed.
    Message = 2,
    /// Values that are sent and not absorbed.
    Hint = 3,
    /// Draws.
    Challenge = 4,
    /// Proofs of work.
    Pow = 5,
    /// Bytes that hide what is sent later.
    Salt = 6,
}

/// A step. Scalars are canonical numbers, below the order of the field, and elements of the extension lists of as many as
/// its degree.
#[derive(Clone, Debug, PartialEq, Eq)]
#[non_exhaustive]
pub enum Step {
    /// A container is opened.
    Begin(Kind),
    /// The innermost container is closed.
    End(Kind),
    /// So many bytes are sent that hide what is sent later.
    Salt(u64),
    /// So many bytes are sent.
    Bytes(u64),
    /// So many bytes are sent that no challenge depends on.
    Hint(u64),
    /// At most so many bytes are sent.
    BytesBounded(u64),
    /// At most so many bytes are sent that no challenge depends on.
    HintBounded(u64),
    /// A scalar is observed that both sides know.
    PublicScalar(u64),
    /// Scalars are observed that both sides know.
    PublicScalars(Vec<u64>),
    /// At most so many scalars are observed that both sides know.
    PublicScalarsBounded(u64, Vec<u64>),
    /// A scalar is sent.
    Scalar,
    /// So many scalars are sent.
    Scalars(u64),
    /// At most so many scalars are sent.
    ScalarsBounded(u64),
    /// An element of the extension is sent.
    Extension,
    /// An element of the extension is observed that the proof does not carry.
    ObserveExtension(Vec<u64>),
    /// Elements of the extension are observed that the proof does not carry.
    ObserveExtensions(Vec<Vec<u64>>),
    /// At most so many elements of the extension are observed that the proof does not carry.
    ObserveExtensionsBounded(u64, Vec<Vec<u64>>),
    /// A digest is observed that the proof does not carry, as the suite has them: bytes, words or elements.
    Opaque(Vec<u64>),
    /// A scalar is drawn.
    ChallengeScalar,
    /// So many scalars are drawn.
    ChallengeScalars(u64),
    /// An element of the extension is drawn.
    ChallengeExtension,
    /// So many elements of the extension are drawn.
    ChallengeExtensions(u64),
    /// `n` numbers of `width` bits are drawn.
    ChallengeBits {
        /// How many bits each has.
        width: u64,
        /// How many they are.
        n: u64,
    },
    /// `n` numbers of `width` uniform bits are drawn.
    ChallengeUniformBits {
        /// How many bits each has.
        width: u64,
        /// How many they are.
        n: u64,
    },
    /// A proof of work of so many bits, whose witness the proof carries.
    Pow(u64),
    /// A proof of work of so many bits, whose witness the caller carries to the verifier.
    ObservePow(u64),
}

impl Step {
    // What it is in a description, and its numbers.
    fn parts(&self) -> (u8, Vec<u64>) {
        match self {
            Step::Scalar => (0, vec![]),
            Step::Extension => (1, vec![]),
            Step::ChallengeScalar => (2, vec![]),
            Step::ChallengeExtension => (3, vec![]),
            Step::Begin(kind) => (4, vec![*kind as u64]),
            Step::End(kind) => (5, vec![*kind as u64]),
            Step::Salt(len) => (6, vec![*len]),
            Step::Bytes(len) => (7, vec![*len]),
            Step::Hint(len) => (8, vec![*len]),
            Step::BytesBounded(max) => (9, vec![*max]),
            Step::HintBounded(max) => (10, vec![*max]),
            Step::Scalars(n) => (11, vec![*n]),
            Step::ScalarsBounded(max) => (12, vec![*max]),
            Step::ChallengeScalars(n) => (13, vec![*n]),
            Step::ChallengeExtensions(n) => (14, vec![*n]),
            Step::Pow(bits) => (15, vec![*bits]),
            Step::ObservePow(bits) => (16, vec![*bits]),
            Step::ChallengeBits { width, n } => (17, vec![*width, *n]),
            Step::ChallengeUniformBits { width, n } => (18, vec![*width, *n]),
            Step::PublicScalar(value) => (19, vec![*value]),
            Step::PublicScalars(values) => (20, values.clone()),
            Step::ObserveExtension(value) => (21, value.clone()),
            Step::ObserveExtensions(values) => (22, values.concat()),
            Step::Opaque(value) => (23, value.clone()),
            Step::PublicScalarsBounded(max, values) => (24, [&[*max], &values[..]].concat()),
            Step::ObserveExtensionsBounded(max, values) => {
                (25, [vec![*max], values.concat()].concat())
            }
        }
    }
}

impl Step {
    /// Adds the step in the form of descriptions.
    pub(crate) fn put(&self, label: &str, to: &mut Vec<u8>) {
        let (what, numbers) = self.parts();
        to.push(what);
        put_text(to, label);
        put_number(to, numbers.len() as u64);
        for number in numbers {
            put_number(to, number);
        }
    }
}

/// Adds a number: 8 bytes, the lowest first.
pub(crate) fn put_number(to: &mut Vec<u8>, number: u64) {
    to.extend_from_slice(&number.to_le_bytes());
}

/// A protocol: a description, which the library reads at each call, or once where it is [prepared](Protocol::prepare). That
/// it is one the calls say.
#[derive(Clone, Copy, Debug, PartialEq, Eq)]
pub struct Protocol {
    description: &'static [u8],
}

impl Protocol {
    /// Begins a protocol of this suite, version and name. The name has 1 to 62 bytes.
    pub fn builder(suite: Suite, version: u8, name: &str) -> Builder {
        let mut head = vec![suite as u8, version];
        put_text(&mut head, name);
        Builder {
            head,
            chunks: Vec::new(),
            chunk_count: 0,
            steps: Vec::new(),
            step_count: 0,
        }
    }

    /// The protocol of a description that is there already, as from `include_bytes!`.
    pub const fn from_static(description: &'static [u8]) -> Protocol {
        Protocol { description }
    }

    /// The description.
    pub const fn description(&self) -> &'static [u8] {
        self.description
    }

    /// How many coefficients an element of the extension has.
    pub(crate) fn degree(&self) -> usize {
        let of_goldilocks = [
            Suite::GoldilocksElements,
            Suite::GoldilocksElementsKeccak,
            Suite::GoldilocksPoseidon2,
        ];
        match self.description.first() {
            Some(byte) if of_goldilocks.iter().any(|it| *it as u8 == *byte) => 1,
            _ => 4,
        }
    }
}

// Adds a text, after its length in one byte. One of more than 255 bytes is written so that no description begins with it.
fn put_text(to: &mut Vec<u8>, text: &str) {
    match u8::try_from(text.len()) {
        Ok(len) => {
            to.push(len);
            to.extend_from_slice(text.as_bytes());
        }
        Err(_) => to.extend_from_slice(&[1, 0xff]),
    }
}

/// Builds a protocol.
#[derive(Clone, Debug)]
pub struct Builder {
    head: Vec<u8>,
    chunks: Vec<u8>,
    chunk_count: u64,
    steps: Vec<u8>,
    step_count: u64,
}

impl Builder {
    /// Adds a chunk to the label of the instance.
    pub fn instance(mut self, chunk: &[u8]) -> Builder {
        put_number(&mut self.chunks, chunk.len() as u64);
        self.chunks.extend_from_slice(chunk);
        self.chunk_count += 1;
        self
    }

    /// Adds a step. A label has at most 255 bytes: with a longer one the description is none, and the calls say so.
    pub fn step(mut self, label: &str, step: Step) -> Builder {
        step.put(label, &mut self.steps);
        self.step_count += 1;
        self
    }

    /// The description.
    pub fn description(&self) -> Vec<u8> {
        let mut all = self.head.clone();
        put_number(&mut all, self.chunk_count);
        all.extend_from_slice(&self.chunks);
        put_number(&mut all, self.step_count);
        all.extend_from_slice(&self.steps);
        all
    }

    /// The protocol. Its description is never freed, since the library asks for one that lasts: build a protocol once.
    pub fn build(&self) -> Protocol {
        Protocol::from_static(Box::leak(self.description().into_boxed_slice()))
    }
}
