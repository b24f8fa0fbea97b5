//! What the static library exports.

// As `crates/tealmuze_c/src/lib.rt` has it, which `tools/bindings` compares: a slice crosses as a pointer and a count, and a
// `Global` as nothing.
unsafe extern "C" {
    pub(crate) fn tealmuze_verify(
        description: *const u8,
        description_len: usize,
        proof: *const u8,
        proof_len: usize,
        carried: *const u64,
        carried_len: usize,
        answer: *mut u8,
        answer_len: usize,
    ) -> usize;

    pub(crate) fn tealmuze_prove(
        description: *const u8,
        description_len: usize,
        values: *const u8,
        values_len: usize,
        answer: *mut u8,
        answer_len: usize,
    ) -> usize;

    pub(crate) fn tealmuze_prepare(
        description: *const u8,
        description_len: usize,
        prepared: *mut *mut u8,
        answer: *mut u8,
        answer_len: usize,
    ) -> usize;

    pub(crate) fn tealmuze_verify_prepared(
        prepared: *mut u8,
        proof: *const u8,
        proof_len: usize,
        carried: *const u64,
        carried_len: usize,
        answer: *mut u8,
        answer_len: usize,
    ) -> usize;

    pub(crate) fn tealmuze_prove_prepared(
        prepared: *mut u8,
        values: *const u8,
        values_len: usize,
        answer: *mut u8,
        answer_len: usize,
    ) -> usize;

    pub(crate) fn tealmuze_prover(
        prepared: *mut u8,
        transcript: *mut *mut u8,
        answer: *mut u8,
        answer_len: usize,
    ) -> usize;

    pub(crate) fn tealmuze_verifier(
        prepared: *mut u8,
        proof: *const u8,
        proof_len: usize,
        transcript: *mut *mut u8,
        answer: *mut u8,
        answer_len: usize,
    ) -> usize;

    pub(crate) fn tealmuze_step(
        transcript: *mut u8,
        request: *const u8,
        request_len: usize,
        answer: *mut u8,
        answer_len: usize,
    ) -> usize;

    pub(crate) fn tealmuze_free(transcript: *mut u8);
}
