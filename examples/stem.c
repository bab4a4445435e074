/* Prints the stems of a few Turkish words, three of them in steps, the harmony of three, the stems of
   headings, what is left of nouns, the stems of three words by the whole run, the pieces of removed
   endings, and four refusals. Given words as arguments, it prints the pieces of these, a line for each
   word, and nothing else.
   Build: cc -std=c11 -I include examples/stem.c target/staticlib/libfannavy.a -o stem */
#include "fannavy.h"

#include <stdio.h>
#include <string.h>

static const uint8_t *bytes(const char *text) { return (const uint8_t *)text; }

static const char *yes_or_no(bool yes) { return yes ? "yes" : "no"; }

static const char *true_or_false(bool flag) { return flag ? "true" : "false"; }

/* What a refusal says. */
static const char *message(uint32_t refusal) {
    switch (refusal) {
    case FANNAVY_OVER_LIMIT:
        return "the word is too long";
    case FANNAVY_NOT_UTF8:
        return "the word is not UTF-8";
    case FANNAVY_OUTPUT_TOO_SHORT:
        return "the output is too short";
    case FANNAVY_BUFFER_TOO_SHORT:
        return "the buffer for pieces is too short";
    }
    return "a number that this program does not know";
}

/* Whether a call was refused; if so it says why and ends the line. */
static bool refused(uint32_t refusal) {
    if (refusal == FANNAVY_NOT_REFUSED) {
        return false;
    }
    printf("refused, number %u: %s\n", (unsigned)refusal, message(refusal));
    return true;
}

/* The stem of a word, by the word pass with an output of `room` bytes. */
static void print_stem(const char *word, size_t room) {
    uint8_t out[FANNAVY_PASS_ROOM(FANNAVY_LIMIT)];
    FannavyPass pass = fannavy_pass(bytes(word), strlen(word), out, room);

    if (refused(pass.refusal)) {
        return;
    }
    printf("'%s' gives '%.*s'", word, (int)pass.length, (const char *)out);
    printf(" (syllable %s,", yes_or_no(pass.syllable));
    printf(" ending removed %s,", yes_or_no(pass.yes));
    printf(" flag %s)\n", true_or_false(pass.flag));
}

/* The same in steps. A word of one syllable or none stays. Of any other the stage keeps the front
   part of the word itself, which is mended where the flag is true and stays where it is false. */
static void print_steps(const char *word) {
    size_t n = strlen(word);
    uint8_t out[FANNAVY_PASS_ROOM(FANNAVY_LIMIT)];

    printf("'%s' in steps: UTF-8 %s, ", word, yes_or_no(fannavy_is_utf8(bytes(word), n)));

    FannavySyllable syllable = fannavy_syllable(bytes(word), n);
    if (refused(syllable.refusal)) {
        return;
    }
    printf("syllable %s, ", yes_or_no(syllable.yes));
    if (!syllable.yes) {
        printf("stays '%s'\n", word);
        return;
    }

    FannavyStage stage = fannavy_stage(bytes(word), n);
    if (refused(stage.refusal)) {
        return;
    }
    printf("kept '%.*s', flag %s, ", (int)stage.length, word, true_or_false(stage.flag));
    if (!stage.flag) {
        printf("stays '%.*s'\n", (int)stage.length, word);
        return;
    }

    FannavyPostlude postlude = fannavy_postlude(bytes(word), stage.length, out, sizeof out);
    if (refused(postlude.refusal)) {
        return;
    }
    printf("mended '%.*s'\n", (int)postlude.length, (const char *)out);
}

/* The two vowels that an ending's harmony rests on, and whether they tell of a loanword. */
static void print_harmony(const char *word) {
    FannavyStage stage = fannavy_stage(bytes(word), strlen(word));

    if (refused(stage.refusal)) {
        return;
    }
    printf("'%s': ", word);
    if (stage.harmonic) {
        printf("harmony of the vowels at %zu and %zu, ", stage.last, stage.partner);
    } else {
        printf("no harmony tested, ");
    }
    printf("loan candidate %s\n", yes_or_no(stage.loan));
}

/* A heading is in capitals and is folded first. The folded text may be longer than the heading. */
static void print_heading(const char *heading) {
    char small[FANNAVY_FOLD_ROOM(FANNAVY_LIMIT) + 1];
    FannavyFold fold =
        fannavy_fold(bytes(heading), strlen(heading), (uint8_t *)small, sizeof small - 1);

    if (refused(fold.refusal)) {
        return;
    }
    small[fold.length] = '\0';
    printf("'%s': ", heading);
    print_stem(small, FANNAVY_PASS_ROOM(FANNAVY_LIMIT));
}

/* What the noun stage leaves, in an output of `room` bytes. */
static void print_noun(const char *word, size_t room) {
    uint8_t out[FANNAVY_NOUN_ROOM(FANNAVY_LIMIT)];
    FannavyNoun noun = fannavy_noun(bytes(word), strlen(word), out, room);

    if (refused(noun.refusal)) {
        return;
    }
    printf("'%s' as a noun leaves '%.*s'", word, (int)noun.length, (const char *)out);
    printf(" (ending removed %s)\n", yes_or_no(noun.yes));
}

/* The stem by the whole run. */
static void print_whole(const char *word) {
    uint8_t out[FANNAVY_PASS_ROOM(FANNAVY_LIMIT)];
    FannavyWhole whole = fannavy_whole(bytes(word), strlen(word), out, sizeof out);

    if (refused(whole.refusal)) {
        return;
    }
    printf("'%s' by the whole run gives '%.*s'\n", word, (int)whole.length, (const char *)out);
}

/* The kinds' names by their numbers. */
static const char *const kinds[] = {
    [FANNAVY_YUM] = "yUm",     [FANNAVY_SUN] = "sUn",       [FANNAVY_YUZ] = "yUz",
    [FANNAVY_SUNUZ] = "sUnUz", [FANNAVY_LAR] = "lAr",       [FANNAVY_NUZ] = "nUz",
    [FANNAVY_DUR] = "DUr",     [FANNAVY_CASINA] = "cAsInA", [FANNAVY_YDU] = "yDU",
    [FANNAVY_YSA] = "ysA",     [FANNAVY_YMUS] = "ymUs_",    [FANNAVY_YKEN] = "yken",
};

/* How a piece joined, for the six kinds that may join with a y. */
static const char *joined(uint8_t kind, const char *letters) {
    if (kinds[kind][0] != 'y') {
        return "";
    }
    return letters[0] == 'y' ? ", with a y" : ", after a vowel and one character";
}

/* The piece that begins at this distance from the kept text's end. */
static const uint8_t *piece_at(size_t distance, const uint8_t *pieces, size_t count) {
    for (size_t i = 0; i < count; i++) {
        if (pieces[3 * i + 1] == distance) {
            return pieces + 3 * i;
        }
    }
    return NULL;
}

/* What was removed, piece by piece as the word has them. The order in which the call writes the
   pieces is free, so each is looked for by its distance: they lie end to end. Behind them, whether
   the word is a loan candidate. */
static void print_pieces(const char *word) {
    uint8_t out[FANNAVY_PIECES_ROOM];
    FannavyPieces pieces = fannavy_pieces(bytes(word), strlen(word), out, sizeof out);

    if (refused(pieces.refusal)) {
        return;
    }
    printf("'%s' is '%.*s'", word, (int)pieces.length, word);
    const char *removed = word + pieces.length;
    const uint8_t *piece = piece_at(0, out, pieces.count);
    while (piece != NULL) {
        const char *letters = removed + piece[1];
        printf(" + '%.*s' (%s%s)", piece[2] + 1 - piece[1], letters, kinds[piece[0]],
               joined(piece[0], letters));
        piece = piece_at((size_t)piece[2] + 1, out, pieces.count);
    }
    if (fannavy_stage(bytes(word), strlen(word)).loan) {
        printf(", a loan candidate");
    }
    printf("\n");
}

/* The same as text, in a buffer of `room` bytes: a line for each piece, their order free too. */
static void print_lines(const char *word, size_t room) {
    uint8_t out[FANNAVY_PIECES_TEXT_ROOM];
    FannavyPiecesText text = fannavy_pieces_text(bytes(word), strlen(word), out, room);

    if (refused(text.refusal)) {
        return;
    }
    printf("'%s' in lines:\n%.*s", word, (int)text.length, (const char *)out);
}

/* Each call at work. */
static void print_samples(void) {
    const char *words[] = {
        "evler", "kanaddır", "kitablar", "arabayken", "doktorsunuz", "saatler", "siniz", "lar", "",
    };

    for (size_t i = 0; i < sizeof words / sizeof words[0]; i++) {
        print_stem(words[i], FANNAVY_PASS_ROOM(strlen(words[i])));
    }
    print_steps("kanaddır");
    print_steps("kitablar");
    print_steps("lar");
    print_harmony("kalemlar");
    print_harmony("evler");
    print_harmony("arabayken");
    print_heading("GÖZLÜKÇÜLER");
    print_heading("IŞIKLAR");
    print_heading("İZLERDİR");
    print_noun("evlerle", FANNAVY_NOUN_ROOM(strlen("evlerle")));
    print_noun("evdekilerdekilerdeki", FANNAVY_NOUN_ROOM(strlen("evdekilerdekilerdeki")));
    print_noun("adakina", FANNAVY_NOUN_ROOM(strlen("adakina")));
    print_noun("saatler", FANNAVY_NOUN_ROOM(strlen("saatler")));
    print_whole("kitabımızdan");
    print_whole("kitablar");
    print_whole("evlerimizdekilerdir");
    print_pieces("evmişlerdir");
    print_pieces("aymışsınızcasına");
    print_pieces("saatler");
    print_pieces("petroller");
    print_lines("arabayken", FANNAVY_PIECES_TEXT_ROOM);
    print_stem("evler", FANNAVY_PASS_ROOM(strlen("evler")) - 1);
    print_noun("evlerle", FANNAVY_NOUN_ROOM(strlen("evlerle")) - 1);
    print_stem("ev\xFF", FANNAVY_PASS_ROOM(strlen("ev\xFF")));
    print_lines("arabayken", FANNAVY_PIECES_TEXT_ROOM - 1);
}

int main(int count, char **arguments) {
    if (count < 2) {
        print_samples();
    }
    for (int i = 1; i < count; i++) {
        print_pieces(arguments[i]);
    }
    return 0;
}
