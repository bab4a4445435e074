/* Every call with null pointers of length 0, in C++ with those of an empty std::string_view. Given an argument, it lends a null pointer
   of length 1, which is an error of the host's. It compiles as C and as C++. */
#include "fannavy.h"

#include <stdio.h>
#include <stdlib.h>

#ifdef __cplusplus
#include <string_view>
static const std::string_view view;
static const uint8_t *const none = reinterpret_cast<const uint8_t *>(view.data());
#else
static const uint8_t *const none = NULL;
#endif

static uint8_t *const nowhere = NULL;

/* Ends the program where something does not hold. */
#define HOLDS(what) holds((what), #what)

static void holds(bool yes, const char *what) {
    if (!yes) {
        fprintf(stderr, "does not hold: %s\n", what);
        exit(1);
    }
}

/* Neither a word nor an output: the calls that need no output answer, the others refuse it as too short. */
static void nothing_at_all(void) {
    HOLDS(fannavy_is_utf8(none, 0));
    HOLDS(fannavy_syllable(none, 0).refusal == FANNAVY_NOT_REFUSED);
    HOLDS(fannavy_stage(none, 0).refusal == FANNAVY_NOT_REFUSED);
    HOLDS(fannavy_postlude(none, 0, nowhere, 0).refusal == FANNAVY_OUTPUT_TOO_SHORT);
    HOLDS(fannavy_fold(none, 0, nowhere, 0).refusal == FANNAVY_NOT_REFUSED);
    HOLDS(fannavy_pass(none, 0, nowhere, 0).refusal == FANNAVY_OUTPUT_TOO_SHORT);
    HOLDS(fannavy_noun(none, 0, nowhere, 0).refusal == FANNAVY_NOT_REFUSED);
    HOLDS(fannavy_whole(none, 0, nowhere, 0).refusal == FANNAVY_OUTPUT_TOO_SHORT);
    HOLDS(fannavy_pieces(none, 0, nowhere, 0).refusal == FANNAVY_BUFFER_TOO_SHORT);
    HOLDS(fannavy_pieces_text(none, 0, nowhere, 0).refusal == FANNAVY_BUFFER_TOO_SHORT);
    HOLDS(fannavy_batch(none, 0, none, 0, nowhere, 0, nowhere, 0, nowhere, 0).refusal == FANNAVY_OUTPUT_TOO_SHORT);
}

/* No word, and an output: the empty word's answer, and no byte written. */
static void no_word(void) {
    uint8_t out[FANNAVY_PIECES_TEXT_ROOM] = {7};
    const size_t room = sizeof out;

    HOLDS(fannavy_postlude(none, 0, out, room).refusal == FANNAVY_NOT_REFUSED);
    HOLDS(fannavy_fold(none, 0, out, room).refusal == FANNAVY_NOT_REFUSED);
    HOLDS(fannavy_pass(none, 0, out, room).refusal == FANNAVY_NOT_REFUSED);
    HOLDS(fannavy_noun(none, 0, out, room).refusal == FANNAVY_NOT_REFUSED);
    HOLDS(fannavy_whole(none, 0, out, room).refusal == FANNAVY_NOT_REFUSED);
    HOLDS(fannavy_pieces(none, 0, out, room).refusal == FANNAVY_NOT_REFUSED);
    HOLDS(fannavy_pieces_text(none, 0, out, room).refusal == FANNAVY_NOT_REFUSED);
    HOLDS(out[0] == 7);
}

/* A word, and no output; the last by the call's address. */
static void no_output(void) {
    static const uint8_t word[] = {'e', 'v'};
    FannavyPass (*const pass)(const uint8_t *, size_t, uint8_t *, size_t) = &fannavy_pass;

    HOLDS(fannavy_fold(word, sizeof word, nowhere, 0).refusal == FANNAVY_OUTPUT_TOO_SHORT);
    HOLDS(fannavy_noun(word, sizeof word, nowhere, 0).refusal == FANNAVY_OUTPUT_TOO_SHORT);
    HOLDS(pass(word, sizeof word, nowhere, 0).refusal == FANNAVY_OUTPUT_TOO_SHORT);
}

/* A batch with no tail, and one with no front. */
static void parts_of_a_batch(void) {
    static const uint8_t tail[] = {'b', 'b', 'b', 'b', 'b', 'b', 'b', 'b', 'b', 'b', 'b', 'b', 'b', 'b', 'b', 'b'};
    uint8_t lengths[FANNAVY_TAILS], answers[FANNAVY_TAILS], flags[FANNAVY_TAILS];
    const size_t room = sizeof lengths;
    FannavyBatch batch = fannavy_batch(tail, sizeof tail, none, 0, lengths, room, answers, room, flags, room);

    HOLDS(batch.refusal == FANNAVY_NOT_REFUSED && batch.count == 0);
    batch = fannavy_batch(none, 0, tail, sizeof tail, lengths, room, answers, room, flags, room);
    HOLDS(batch.refusal == FANNAVY_NOT_REFUSED && batch.count == 1 && lengths[0] == sizeof tail);
}

int main(int count, char **arguments) {
    (void)arguments;
    if (count > 1) {
        return fannavy_is_utf8(none, 1) ? 1 : 2;
    }
    nothing_at_all();
    no_word();
    no_output();
    parts_of_a_batch();
    return 0;
}
