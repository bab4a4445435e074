/* The header as a host uses it: sizes in constants and of variables, and the calls' addresses. It compiles as C and as C++, without a
   warning, and ends with status 0. */
#include "fannavy.h"

#include <assert.h>

/* A size is a size_t, and holds together in a larger expression. */
static_assert(sizeof(FANNAVY_PASS_ROOM(1)) == sizeof(size_t), "pass: a size_t");
static_assert(FANNAVY_NOUN_ROOM(-1) == SIZE_MAX, "noun: a size_t");
static_assert(2 * FANNAVY_PASS_ROOM(1 | 4) == 14, "pass: n + 2");
static_assert(2 * FANNAVY_NOUN_ROOM(1 | 4) == 10, "noun: n");
static_assert(2 * FANNAVY_FOLD_ROOM(1 | 4) == 20, "fold: 2 n");
static_assert(sizeof(FANNAVY_VERSION) > sizeof(""), "a version");

static uint8_t pass_out[FANNAVY_PASS_ROOM(FANNAVY_LIMIT)];
static uint8_t noun_out[FANNAVY_NOUN_ROOM(sizeof pass_out)];
static uint8_t fold_out[FANNAVY_FOLD_ROOM(FANNAVY_LIMIT)];

static size_t of_int(int n) { return FANNAVY_PASS_ROOM(n) + FANNAVY_NOUN_ROOM(n) + FANNAVY_FOLD_ROOM(n); }

static size_t of_unsigned(unsigned n) { return FANNAVY_PASS_ROOM(n) + FANNAVY_NOUN_ROOM(n) + FANNAVY_FOLD_ROOM(n); }

static size_t of_size(size_t n) { return FANNAVY_PASS_ROOM(n) + FANNAVY_NOUN_ROOM(n) + FANNAVY_FOLD_ROOM(n); }

typedef FannavyPass Pass(const uint8_t *w, size_t n, uint8_t *out, size_t room);

int main(void) {
    static const uint8_t word[] = {'e', 'v', 'l', 'e', 'r'};
    Pass *const calls[] = {fannavy_pass, &fannavy_pass};

    for (int i = 0; i < 2; i++) {
        if (calls[i](word, sizeof word, pass_out, sizeof pass_out).length != 2) {
            return 1;
        }
    }
    if (fannavy_noun(pass_out, 2, noun_out, sizeof noun_out).length != 2) {
        return 2;
    }
    if (fannavy_fold(pass_out, 2, fold_out, sizeof fold_out).length != 2) {
        return 3;
    }
    return of_int(5) == 22 && of_unsigned(5) == 22 && of_size(5) == 22 ? 0 : 4;
}
