//! What the examples share that ask for changed bytes.
use tealmuze::{Builder, Kind, Protocol, Step, Suite};

/// A byte that stands where nothing was written.
pub const UNWRITTEN: u8 = 0xa5;

/// A proof of the demo protocol.
pub const PROOF: [u8; 24] =
    *b"\x00\x11\x22\x33\x44\x55\x66\x77\x02\0\0\0\x01\0\0\0\x02\0\0\0\x36\x02hi";

/// Xorshift of 64 bits.
pub struct Chance(pub u64);

impl Chance {
    pub fn next(&mut self) -> u64 {
        self.0 ^= self.0 << 13;
        self.0 ^= self.0 >> 7;
        self.0 ^= self.0 << 17;
        self.0
    }

    pub fn below(&mut self, most: usize) -> usize {
        (self.next() % most.max(1) as u64) as usize
    }

    pub fn bytes(&mut self, most: usize) -> Vec<u8> {
        (0..self.below(most)).map(|_| self.next() as u8).collect()
    }
}

/// The demo protocol.
pub fn demo() -> Builder {
    Protocol::builder(Suite::BabyBearElements, 2, "demo")
        .instance(b"example")
        .step("demo", Step::Begin(Kind::Protocol))
        .step("inputs", Step::PublicScalarsBounded(4, vec![9]))
        .step("salt", Step::Salt(8))
        .step("values", Step::ScalarsBounded(4))
        .step("work", Step::Pow(8))
        .step("alpha", Step::ChallengeScalar)
        .step("note", Step::HintBounded(16))
        .step("indices", Step::ChallengeUniformBits { width: 4, n: 2 })
        .step("demo", Step::End(Kind::Protocol))
}
