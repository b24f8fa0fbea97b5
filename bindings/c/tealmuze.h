/* Fiat-Shamir transcripts, played by the proved library crates/tealmuze_c. Link libtealmuze_c.a, which tools/bindings
 * makes. What stands in a description, in values and in an answer is in docs/BINDINGS.md; this is a summary.
 *
 * A number has 8 bytes, the lowest first. A text is a byte, its length, and that many bytes of UTF-8.
 *
 * A description: the suite (a byte), the version (a byte), the name (a text of 1 to 62 bytes); the number of the chunks of
 * the instance, and each after its length; the number of the steps, and of each what it is (a byte), its label (a text),
 * how many numbers it has, and these.
 *
 * An answer's first byte:
 *   0  accepted, proved or prepared: what docs/BINDINGS.md says stands after it
 *   1  refused: the position of the step (a number), and the reason, as text up to the end, of 1000 bytes at most
 *   2  nothing was asked that can be answered: why, as text up to the end, of 1000 bytes at most
 *   3  memory ran out: nothing stands after it
 *
 * A call writes its answer into `answer` and returns how many bytes it has. Where it returns more than `answer_len`, it
 * wrote nothing, and verified, proved or prepared nothing yet: give that many bytes and call again.
 *
 * The caller promises: each pointer leads to as many elements as the count after it says, which the call may read, or for
 * `answer` write; what may be written overlaps nothing else that is passed; no pointer is NULL, also where the count is 0;
 * and `description` is not changed while the call runs, or, where tealmuze_prepare answered 0, as long as the program runs.
 * (The contracts ask that each description lasts as long as the program. Nothing is kept of one that is not prepared once a
 * call has returned, which is not proved.) Calls may run in several threads at once, if malloc may. */
#ifndef TEALMUZE_H
#define TEALMUZE_H

#include <stddef.h>
#include <stdint.h>

#ifdef __cplusplus
extern "C" {
#endif

/* The first byte of an answer. */
enum { TEALMUZE_DONE = 0, TEALMUZE_REFUSED = 1, TEALMUZE_UNASKED = 2, TEALMUZE_OUT_OF_MEMORY = 3 };

/* Verifies a proof, with the witnesses that the caller carries to the steps `observe_pow`. */
size_t tealmuze_verify(const uint8_t *description, size_t description_len,
                       const uint8_t *proof, size_t proof_len,
                       const uint64_t *carried, size_t carried_len,
                       uint8_t *answer, size_t answer_len);

/* Proves values, which are encoded as tealmuze_verify encodes those that it received. */
size_t tealmuze_prove(const uint8_t *description, size_t description_len,
                      const uint8_t *values, size_t values_len,
                      uint8_t *answer, size_t answer_len);

/* A protocol that is prepared for many proofs. One thread at a time may call with it. */
typedef struct tealmuze_prepared tealmuze_prepared;

/* Prepares a protocol for many proofs: its description is read and its pattern made, once. The answer is 0 alone, and
 * *prepared a pointer for the two calls below; or 2 and why, or 3, and *prepared is unchanged. It has 1001 bytes at most.
 *
 * What is prepared is kept as long as the program runs: prepare each protocol once, and not once for each proof. */
size_t tealmuze_prepare(const uint8_t *description, size_t description_len,
                        tealmuze_prepared **prepared,
                        uint8_t *answer, size_t answer_len);

/* Verifies a proof, and answers as tealmuze_verify does with the description that was prepared. `prepared` is a pointer
 * that tealmuze_prepare wrote. */
size_t tealmuze_verify_prepared(tealmuze_prepared *prepared,
                                const uint8_t *proof, size_t proof_len,
                                const uint64_t *carried, size_t carried_len,
                                uint8_t *answer, size_t answer_len);

/* Proves values, and answers as tealmuze_prove does with the description that was prepared. `prepared` is a pointer that
 * tealmuze_prepare wrote. */
size_t tealmuze_prove_prepared(tealmuze_prepared *prepared,
                               const uint8_t *values, size_t values_len,
                               uint8_t *answer, size_t answer_len);

/* One side of a transcript that is played step by step. */
typedef struct tealmuze_transcript tealmuze_transcript;

/* Begins a prover of a prepared protocol. The answer is 0 alone, and *transcript a pointer for the two calls below; or it is
 * 1 where the seed is refused, or 3, and *transcript is unchanged. It has 1009 bytes at most. `prepared` is a pointer that
 * tealmuze_prepare wrote. Calls with a prepared protocol and with all transcripts that are of it are made one at a time. */
size_t tealmuze_prover(tealmuze_prepared *prepared,
                       tealmuze_transcript **transcript,
                       uint8_t *answer, size_t answer_len);

/* Begins a verifier of a proof, of which it makes a copy, and answers as tealmuze_prover does. */
size_t tealmuze_verifier(tealmuze_prepared *prepared,
                         const uint8_t *proof, size_t proof_len,
                         tealmuze_transcript **transcript,
                         uint8_t *answer, size_t answer_len);

/* Plays the next step of a transcript. A request is the step, in the form of descriptions, and then the value that a prover
 * sends there, if it sends one, or the witness (a number) that is carried to a verifier, if one is. A request of no bytes
 * asks for the end. What stands in the answer is in docs/BINDINGS.md. After an answer 2 nothing was played; after a 1 no
 * step may follow; and after a 3 the transcript is as it was, or no step may follow. `transcript` is a pointer that
 * tealmuze_prover or tealmuze_verifier wrote. */
size_t tealmuze_step(tealmuze_transcript *transcript,
                     const uint8_t *request, size_t request_len,
                     uint8_t *answer, size_t answer_len);

/* Frees a transcript. It may not be called with after that. */
void tealmuze_free(tealmuze_transcript *transcript);

#ifdef __cplusplus
}
#endif

#endif
