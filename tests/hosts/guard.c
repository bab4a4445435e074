/* Stands between a program and the archive, put there by the linker (--wrap): ends the program where a call would be handed a null
   pointer, which the archive's convention forbids whatever the length. */
#include "fannavy.h"

#include <stdio.h>
#include <stdlib.h>

static void hold(const uint8_t *lent, const char *call) {
    if (lent == NULL) {
        fprintf(stderr, "a null pointer reaches the archive: %s\n", call);
        abort();
    }
}

#define READS(Answer, call)                                                                                                              \
    Answer __real_##call(const uint8_t *w, size_t n);                                                                                    \
    Answer __wrap_##call(const uint8_t *w, size_t n);                                                                                    \
    Answer __wrap_##call(const uint8_t *w, size_t n) {                                                                                   \
        hold(w, #call);                                                                                                                  \
        return __real_##call(w, n);                                                                                                      \
    }

#define WRITES(Answer, call)                                                                                                             \
    Answer __real_##call(const uint8_t *w, size_t n, uint8_t *out, size_t room);                                                         \
    Answer __wrap_##call(const uint8_t *w, size_t n, uint8_t *out, size_t room);                                                         \
    Answer __wrap_##call(const uint8_t *w, size_t n, uint8_t *out, size_t room) {                                                        \
        hold(w, #call);                                                                                                                  \
        hold(out, #call);                                                                                                                \
        return __real_##call(w, n, out, room);                                                                                           \
    }

READS(bool, fannavy_is_utf8)
READS(FannavySyllable, fannavy_syllable)
READS(FannavyStage, fannavy_stage)
WRITES(FannavyPostlude, fannavy_postlude)
WRITES(FannavyFold, fannavy_fold)
WRITES(FannavyPass, fannavy_pass)
WRITES(FannavyNoun, fannavy_noun)
WRITES(FannavyWhole, fannavy_whole)
WRITES(FannavyPieces, fannavy_pieces)
WRITES(FannavyPiecesText, fannavy_pieces_text)

FannavyBatch __real_fannavy_batch(const uint8_t *front, size_t front_n, const uint8_t *tails, size_t tails_n, uint8_t *lengths,
                                  size_t lengths_room, uint8_t *answers, size_t answers_room, uint8_t *flags, size_t flags_room);
FannavyBatch __wrap_fannavy_batch(const uint8_t *front, size_t front_n, const uint8_t *tails, size_t tails_n, uint8_t *lengths,
                                  size_t lengths_room, uint8_t *answers, size_t answers_room, uint8_t *flags, size_t flags_room);
FannavyBatch __wrap_fannavy_batch(const uint8_t *front, size_t front_n, const uint8_t *tails, size_t tails_n, uint8_t *lengths,
                                  size_t lengths_room, uint8_t *answers, size_t answers_room, uint8_t *flags, size_t flags_room) {
    const uint8_t *const lent[] = {front, tails, lengths, answers, flags};

    for (int i = 0; i < 5; i++) {
        hold(lent[i], "fannavy_batch");
    }
    return __real_fannavy_batch(front, front_n, tails, tails_n, lengths, lengths_room, answers, answers_room, flags, flags_room);
}
