/* Prints what the suffix stage does to many words with one front, and two refusals.
   Build: cc -std=c11 -I include examples/batch.c target/staticlib/libfannavy.a -o batch */
#include "fannavy.h"

#include <stdio.h>
#include <string.h>

static const uint8_t *bytes(const char *text) { return (const uint8_t *)text; }

/* What a refusal says. */
static const char *message(uint32_t refusal) {
    switch (refusal) {
    case FANNAVY_OVER_LIMIT:
        return "the front, a tail or a word is too long";
    case FANNAVY_NOT_UTF8:
        return "the front or a tail is not UTF-8";
    case FANNAVY_TAILS_REFUSED:
        return "there are too many tails, or one is too short";
    case FANNAVY_OUTPUT_TOO_SHORT:
        return "a buffer is too short";
    }
    return "a number that this program does not know";
}

/* Each word, which is the front with a tail behind it, with what is kept of it. */
static void print_batch(const char *front, const char *tails) {
    uint8_t lengths[FANNAVY_TAILS], answers[FANNAVY_TAILS], flags[FANNAVY_TAILS];
    size_t n = strlen(front);
    FannavyBatch batch =
        fannavy_batch(bytes(front), n, bytes(tails), strlen(tails), lengths, sizeof lengths, answers,
                      sizeof answers, flags, sizeof flags);

    if (batch.refusal != FANNAVY_NOT_REFUSED) {
        printf("refused, number %u: %s\n", (unsigned)batch.refusal, message(batch.refusal));
        return;
    }
    for (size_t i = 0; i < batch.count; i++) {
        int length = (int)strcspn(tails, "\n");
        printf("'%s%.*s'", front, length, tails);
        /* A tail has a character more than can be removed, so the front is kept whole. */
        printf(" keeps '%s%.*s'", front, (int)(lengths[i] - n), tails);
        printf(" (ending removed %s,", answers[i] ? "yes" : "no");
        printf(" flag %s)\n", flags[i] ? "true" : "false");
        tails += length + 1;
    }
}

int main(void) {
    print_batch("elektromanyetik", "uyumlulukölçerler\n"
                                   "uyumlulukölçermiş\n"
                                   "uyumlulukölçermişcesine\n"
                                   "uyumlulukölçümüne");
    /* The front's vowel decides: -dir is in harmony with it, -dır is not. */
    print_batch("e", "kstrstrngthnlrdir\nkstrstrngthnlrdır\n");
    print_batch("ev", "ler\n");
    print_batch("ev", "uyumlulukölçerler\n\xFF");
    return 0;
}
