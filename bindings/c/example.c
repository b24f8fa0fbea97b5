/* Proves two bytes and verifies the proof, then a cut one with the protocol prepared, and proves them step by step:
 * cc example.c -ltealmuze_c. Returns 0 where all is as it should be. */
#include "tealmuze.h"
#include <stdio.h>
#include <string.h>

/* Suite 0, version 1, named "c"; no chunks; 2 steps: 2 bytes labelled "b", and a challenge "x". */
static const uint8_t DESCRIPTION[] = {
    0, 1, 1, 'c', 0, 0, 0, 0, 0, 0, 0, 0, 2, 0, 0, 0, 0, 0, 0, 0,
    7, 1, 'b', 1, 0, 0, 0, 0, 0, 0, 0, 2, 0, 0, 0, 0, 0, 0, 0,
    2, 1, 'x', 0, 0, 0, 0, 0, 0, 0, 0,
};
/* One value, of bytes, 2 of them. */
static const uint8_t VALUES[] = {1, 0, 0, 0, 0, 0, 0, 0, 0, 2, 0, 0, 0, 0, 0, 0, 0, 'h', 'i'};

/* Proves the same one step at a time: the bytes, the challenge, and the end. */
static int step_by_step(tealmuze_prepared *prepared) {
    static uint8_t answer[4096], request[19 + sizeof VALUES - 8];
    tealmuze_transcript *prover;
    tealmuze_prover(prepared, &prover, answer, sizeof answer);
    if (answer[0] != TEALMUZE_DONE) return 1;
    memcpy(request, DESCRIPTION + 20, 19);
    memcpy(request + 19, VALUES + 8, sizeof VALUES - 8);
    tealmuze_step(prover, request, sizeof request, answer, sizeof answer);
    int sent = answer[0];
    tealmuze_step(prover, DESCRIPTION + 39, sizeof DESCRIPTION - 39, answer, sizeof answer);
    int drawn = answer[0];
    tealmuze_step(prover, request, 0, answer, sizeof answer);
    printf("step by step %d %d %d, proof %.2s\n", sent, drawn, answer[0], (const char *)answer + 9);
    tealmuze_free(prover);
    return sent == 0 && drawn == 0 && answer[0] == 0 && memcmp(answer + 9, "hi", 2) == 0 ? 0 : 1;
}

int main(void) {
    static uint8_t answer[4096], proof[2];
    const uint64_t none[1] = {0};
    size_t wanted = tealmuze_prove(DESCRIPTION, sizeof DESCRIPTION, VALUES, sizeof VALUES, answer, 1);
    size_t proved = tealmuze_prove(DESCRIPTION, sizeof DESCRIPTION, VALUES, sizeof VALUES, answer, wanted);
    printf("room %zu, answer of %zu bytes, proof of %d\n", wanted, proved, answer[1]);
    if (answer[0] != TEALMUZE_DONE || answer[1] != sizeof proof) return 1;
    memcpy(proof, answer + 9, sizeof proof);

    tealmuze_verify(DESCRIPTION, sizeof DESCRIPTION, proof, 2, none, 0, answer, sizeof answer);
    printf("verdict %d, bytes %.2s\n", answer[0], (const char *)answer + 18);
    if (answer[0] != TEALMUZE_DONE || memcmp(answer + 18, "hi", 2) != 0) return 1;

    tealmuze_prepared *prepared;
    tealmuze_prepare(DESCRIPTION, sizeof DESCRIPTION, &prepared, answer, sizeof answer);
    if (answer[0] != TEALMUZE_DONE) return 1;
    size_t refused = tealmuze_verify_prepared(prepared, proof, 1, none, 0, answer, sizeof answer);
    printf("verdict %d at step %d: %.*s\n", answer[0], answer[1], (int)(refused - 9), (const char *)answer + 9);
    if (answer[0] != TEALMUZE_REFUSED || answer[1] != 0) return 1;
    return step_by_step(prepared);
}
