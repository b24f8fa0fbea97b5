//! Fiat-Shamir transcripts, played by a proved library.
//!
//! A protocol is a list of steps: what a prover sends, what both sides know, and what is drawn. [`prove`] plays it with
//! the values that the prover sends and answers a proof; [`verify`] plays it with a proof, and answers what was received
//! and drawn, or at which step the proof is refused and why. What the library that plays it is proved to do, and what is
//! trusted, stands in the repository's `docs/BINDINGS.md`.
//!
//! ```
//! use tealmuze::{Protocol, Step, Suite, Value};
//!
//! let protocol = Protocol::builder(Suite::BabyBearBytes, 1, "example")
//!     .step("values", Step::Scalars(2))
//!     .step("alpha", Step::ChallengeScalar)
//!     .build();
//! let proved = tealmuze::prove(&protocol, &[Value::Scalars(vec![1, 2])])?;
//! let verified = tealmuze::verify(&protocol, &proved.proof, &proved.carried)?;
//! assert_eq!(verified.received, [Value::Scalars(vec![1, 2])]);
//! assert_eq!(verified.challenges, proved.challenges);
//! # Ok::<(), tealmuze::Error>(())
//! ```
//!
//! Each of these calls reads the protocol's description and makes its pattern. For many proofs of one protocol,
//! [`Protocol::prepare`] does that once, and keeps it for as long as the program runs: [`Prepared`]. Of that a [`Prover`] and a
//! [`Verifier`] play one step at a time, where what is sent depends on what was drawn.
#![no_std]
#![deny(missing_docs)]

extern crate alloc;

mod call;
mod error;
mod library;
mod live;
mod prepared;
mod protocol;
mod value;

pub use call::{prove, verify, Proved, Verified};
pub use error::Error;
pub use live::{Played, Prover, Verifier};
pub use prepared::Prepared;
pub use protocol::{Builder, Kind, Protocol, Step, Suite};
pub use value::{Challenge, Value};
