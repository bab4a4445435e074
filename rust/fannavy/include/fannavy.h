/*
 * Fannavy: Turkish stemming with proved contracts. For C11 and C++ on x86-64; the calls are
 * in libfannavy.a.
 *
 * A word is w[0] .. w[n - 1]: one Turkish word in UTF-8, in small letters, with no zero byte at its
 * end. A capital letter is neither a vowel nor part of an ending: fold a heading first, by
 * fannavy_fold. Every text that a call gives is UTF-8 too.
 *
 * Lent memory, in every call:
 *   - a pointer may be null where its length is 0, as that of an empty std::string_view is. (The archive
 *     itself takes no null pointer; the functions at the end of this file keep one from it. A language
 *     that calls the archive past this header has to do the same);
 *   - the word and the output of one call do not overlap; where a call takes more than these, nothing
 *     that it writes overlaps anything else that it is lent;
 *   - the call reads the n bytes of the word and writes the first `length` bytes of the output
 *     (fannavy_pieces the first 3 * count, fannavy_batch the first `count` of each of its three). The
 *     word stays as it was, and so does the rest of the output. Nothing is allocated and nothing is
 *     kept after the call, so calls may run side by side.
 *
 * Refusals. There is no other error than `refusal`, which gives the first number that applies, in the
 * order in which the call's comment names its numbers. A refused call gives its number, and 0 and false
 * in all other fields, and the whole output stays as it was.
 */
#ifndef FANNAVY_H
#define FANNAVY_H

#include <stdbool.h>
#include <stddef.h>
#include <stdint.h>

#ifdef __cplusplus
extern "C" {
#endif

/* The version, of this header and of the archive beside it. */
#define FANNAVY_VERSION "0.1.0"

/* The longest word, in bytes: one byte more is refused. */
#define FANNAVY_LIMIT 96

/*
 * Any integer as a size_t, for the three sizes that follow. In C++ this is no old-style cast, and never
 * one from size_t to itself, which some warn of: with 0LL the sum has another type.
 */
#ifdef __cplusplus
#define FANNAVY_SIZE_(n) (static_cast<size_t>((n) + 0LL))
#else
#define FANNAVY_SIZE_(n) ((size_t)(n))
#endif

/* The least output for a word of n bytes, of fannavy_postlude, fannavy_pass and fannavy_whole. */
#define FANNAVY_PASS_ROOM(n) (FANNAVY_SIZE_(n) + 2)

/* The least output for a word of n bytes, of fannavy_noun. */
#define FANNAVY_NOUN_ROOM(n) FANNAVY_SIZE_(n)

/*
 * An output that always suffices for the fold of a word of n bytes. fannavy_fold itself asks only for
 * as many bytes as the folded text has.
 */
#define FANNAVY_FOLD_ROOM(n) (2 * FANNAVY_SIZE_(n))

/* The least output whatever the word: of fannavy_pieces; of fannavy_pieces_text. */
#define FANNAVY_PIECES_ROOM 9
#define FANNAVY_PIECES_TEXT_ROOM 96

/*
 * Of fannavy_batch: the most tails, which is also the least size of each of its buffers; and the fewest
 * characters of a tail.
 */
#define FANNAVY_TAILS 64
#define FANNAVY_TAIL_LEAST 16

/* The numbers in `refusal`. Of a batch, 1 and 2 are about its front, a tail or a word of the two. */
#define FANNAVY_NOT_REFUSED UINT32_C(0)
#define FANNAVY_OVER_LIMIT UINT32_C(1)       /* the word is longer than FANNAVY_LIMIT bytes */
#define FANNAVY_NOT_UTF8 UINT32_C(2)         /* the word is not UTF-8 */
#define FANNAVY_OUTPUT_TOO_SHORT UINT32_C(3) /* `room`, or one of three, is less than the call needs */
#define FANNAVY_BUFFER_TOO_SHORT UINT32_C(5) /* the same in the two calls on pieces */
#define FANNAVY_TAILS_REFUSED UINT32_C(6)    /* too many tails, or one of too few characters */

/*
 * Whether the bytes are UTF-8: shortest forms only, no surrogates, nothing above U+10FFFF. Takes
 * any bytes, of any length, and never refuses.
 */
bool fannavy_is_utf8(const uint8_t *w, size_t n);

typedef struct {
    uint32_t refusal;
    bool yes;
} FannavySyllable;

/*
 * Whether the word has more than one syllable: yes where it has two vowels (a e ı i o ö u ü) or
 * more. Refuses by the numbers 1 and 2.
 */
FannavySyllable fannavy_syllable(const uint8_t *w, size_t n);

typedef struct {
    uint32_t refusal;
    size_t length;
    bool yes;
    bool flag;
    bool harmonic;
    size_t last;
    size_t partner;
    bool loan;
} FannavyStage;

/*
 * Removes the endings of a nominal verb from the word's end. What is kept is w[0] .. w[length - 1],
 * whole characters, possibly none; there is no output.
 *
 *   yes       an ending was removed; where none was, length is n
 *   flag      stemming may go on (fannavy_noun, fannavy_postlude). False only where the plural (-lar,
 *             -ler) was removed from the word's very end, after which no more is to be removed or
 *             mended. True where no ending was found; in a refused call false, so look at `refusal`
 *             first
 *   harmonic  a piece of the ending (fannavy_pieces) tests vowel harmony: every piece does but those of
 *             FANNAVY_SUNUZ, FANNAVY_CASINA, FANNAVY_YSA and FANNAVY_YKEN. The next three are of the
 *             first that does, from the word's end inward; 0 and false where none does. 0 is an offset
 *             too, so look at `harmonic` first
 *   last      w[last] is the first byte of the last vowel up to that piece's end; it lies in the piece
 *   partner   w[partner] is the first byte of the nearest vowel before it that is in harmony with it:
 *             for a this is a ı o u; for e, e i ö ü; for ı, a ı; for i, e i; for u, o u; for ü, ö ü
 *   loan      the word is a loan candidate: some vowel stands between these two (kalemlar: the e
 *             between the a of -lar, at 6, and its partner, at 1)
 *
 * Refuses by the numbers 1 and 2.
 */
FannavyStage fannavy_stage(const uint8_t *w, size_t n);

typedef struct {
    uint32_t refusal;
    size_t length;
    bool yes;
} FannavyPostlude;

/*
 * Mends the end of a text from which an ending was removed, and writes it to
 * out[0] .. out[length - 1]. A final d or g, with a vowel anywhere before it, gains ı, i, u or ü by
 * the last vowel (kanad: kanadı). Otherwise a final b, c, d or ğ becomes p, ç, t or k (ayağ: ayak).
 * All else is copied.
 *
 *   yes   false for the words ad and soyad, which are copied; true for every other text, whether
 *         anything was mended or not
 *
 * `room` is the output's size, FANNAVY_PASS_ROOM(n) or more whatever the word. Refuses by the
 * numbers 1, 2 and 3.
 */
FannavyPostlude fannavy_postlude(const uint8_t *w, size_t n, uint8_t *out, size_t room);

typedef struct {
    uint32_t refusal;
    size_t length;
} FannavyFold;

/*
 * Writes the word in small letters to out[0] .. out[length - 1]: I becomes ı and İ becomes i, the
 * other letters of A to Z become a to z, and Ç Ğ Ö Ş Ü become ç ğ ö ş ü. Every other character is
 * copied, a dot above (U+0307) too. Folding the text again leaves it as it is.
 *
 *   length  how many bytes the folded text has, from half to twice n: ı has a byte more than I, and
 *           i one less than İ. It may be over FANNAVY_LIMIT
 *
 * `room` is the output's size. The call is refused by the number 3 exactly where the folded text is
 * longer, so FANNAVY_FOLD_ROOM(n) is never too short; with less the text may have to be measured
 * first, which takes longer. Refuses by the numbers 1, 2 and 3.
 */
FannavyFold fannavy_fold(const uint8_t *w, size_t n, uint8_t *out, size_t room);

typedef struct {
    uint32_t refusal;
    size_t length;
    bool syllable;
    bool yes;
    bool flag;
} FannavyPass;

/*
 * The word pass: a stem with the endings of a noun left on, written to out[0] .. out[length - 1],
 * possibly nothing. A word of one syllable or none (fannavy_syllable) is copied. Of any other the
 * endings of a nominal verb are removed (fannavy_stage), and what is kept is mended (fannavy_postlude)
 * where the flag is true, copied where it is false.
 *
 *   syllable  the answer of fannavy_syllable
 *   yes       an ending was removed; false where `syllable` is
 *   flag      as fannavy_stage gives it; true where `syllable` is false, though nothing was mended
 *
 * `room` is the output's size, FANNAVY_PASS_ROOM(n) or more whatever the word. Refuses by the
 * numbers 1, 2 and 3.
 */
FannavyPass fannavy_pass(const uint8_t *w, size_t n, uint8_t *out, size_t room);

typedef struct {
    uint32_t refusal;
    size_t length;
    bool yes;
} FannavyNoun;

/*
 * Removes the endings of a noun from the word's end: the plural, possessives, cases, and -ki with the
 * case before it, however often it comes. What is left is written to out[0] .. out[length - 1], whole
 * characters, possibly none. Mostly it is a front part of the word; but where na, ne, nda or nde
 * follows such a -ki, these letters may stay and the part before them is cut out (evinkinde: evnde).
 * Takes a word of any number of syllables, unlike fannavy_whole.
 *
 *   yes   an ending was removed; where none was, the word is copied
 *
 * `room` is the output's size, FANNAVY_NOUN_ROOM(n) or more whatever the word: 0 for the empty word,
 * whose output may be null. Refuses by the numbers 1, 2 and 3.
 */
FannavyNoun fannavy_noun(const uint8_t *w, size_t n, uint8_t *out, size_t room);

typedef struct {
    uint32_t refusal;
    size_t length;
} FannavyWhole;

/*
 * The whole Turkish run of a word, written to out[0] .. out[length - 1], possibly nothing. A word of one
 * syllable or none (fannavy_syllable) is copied. Of any other the endings of a nominal verb are removed
 * (fannavy_stage); that is all where the flag is false. Where it is true, the endings of a noun are
 * removed too, from what that kept (fannavy_noun), and what is left is mended (fannavy_postlude).
 *
 * That this is what the commands of turkish.sbl give is proved. That rust-stemmers 1.2.0 and Snowball's C
 * library give the same stem is compared on millions of words, and not proved.
 *
 * `room` is the output's size, FANNAVY_PASS_ROOM(n) or more whatever the word. Refuses by the
 * numbers 1, 2 and 3.
 */
FannavyWhole fannavy_whole(const uint8_t *w, size_t n, uint8_t *out, size_t room);

/*
 * The kinds of pieces: the marks of turkish.sbl. In their names U stands for ı, i, u or ü, A for a or
 * e, I for ı or i, D for d or t. Six kinds have a small y in front, the y with which such a piece may
 * join after a vowel; where it has no y, it stands after a vowel and one character. The other six ask
 * for neither.
 */
enum {
    FANNAVY_YUM = 1,    /* yUm: I am */
    FANNAVY_SUN = 2,    /* sUn: you are, one person */
    FANNAVY_YUZ = 3,    /* yUz: we are */
    FANNAVY_SUNUZ = 4,  /* sUnUz: you are, several */
    FANNAVY_LAR = 5,    /* lAr: the plural, or they are */
    FANNAVY_NUZ = 6,    /* nUz: you, several, after yDU or ysA */
    FANNAVY_DUR = 7,    /* DUr: is */
    FANNAVY_CASINA = 8, /* cAsInA: as if */
    FANNAVY_YDU = 9,    /* yDU: was; m, n or k after it tells the person */
    FANNAVY_YSA = 10,   /* ysA: if; m, n or k after it tells the person */
    FANNAVY_YMUS = 11,  /* ymUs_: is said to be */
    FANNAVY_YKEN = 12,  /* yken: while */
};

typedef struct {
    uint32_t refusal;
    size_t length;
    size_t count;
} FannavyPieces;

/*
 * What fannavy_stage removes, in pieces, one for each mark that it keeps; none where it finds no
 * ending. The pieces lie end to end and together are w[length] .. w[n - 1]. Three bytes for each are
 * written to out[0] .. out[3 * count - 1]: its kind, then the distances of its first and of its last
 * byte from the kept text's end. So the piece at p = out + 3 * i, where i < count, has the kind p[0]
 * and the letters w[length + p[1]] .. w[length + p[2]]. A piece of the six kinds that may join with a
 * y did so exactly where its first letter is one.
 *
 *   length  how many bytes of the word are kept, as fannavy_stage gives it
 *   count   how many pieces there are, 0 to 3
 *
 * The order in which the pieces stand is not promised and may be another in another edition: order
 * them by their distances where it matters.
 *
 * `room` is the output's size, FANNAVY_PIECES_ROOM or more. Refuses by the numbers 1, 2 and 5.
 */
FannavyPieces fannavy_pieces(const uint8_t *w, size_t n, uint8_t *out, size_t room);

typedef struct {
    uint32_t refusal;
    size_t length;
} FannavyPiecesText;

/*
 * The same pieces as text, written to out[0] .. out[length - 1], a line for each: the name of its
 * kind (yUm to yken as above, ymUs_ with its underscore), a tab, its letters with the y that joined
 * it, a line feed. There is no zero byte at the end. Here too the order of the lines is not promised.
 * `length` is the text's; the kept text's is the answer of fannavy_stage, or of fannavy_pieces.
 *
 * `room` is the output's size, FANNAVY_PIECES_TEXT_ROOM or more. Refuses by the numbers 1, 2 and 5.
 */
FannavyPiecesText fannavy_pieces_text(const uint8_t *w, size_t n, uint8_t *out, size_t room);

typedef struct {
    uint32_t refusal;
    size_t count;
} FannavyBatch;

/*
 * fannavy_stage of many words with one front, all at once: for a host that tries many endings on one
 * long compound. Each word is front[0] .. front[front_n - 1] with a tail behind it.
 *
 * The tails are in tails[0] .. tails[tails_n - 1], each closed by a line feed; bytes past the last line
 * feed are one more tail. So two line feeds in a row have an empty tail between them, and no bytes are
 * no tail, which is not refused. Nothing else parts them: a carriage return is a character of its tail,
 * and hides every ending. A line feed in the front is a character like any other.
 *
 * A tail has FANNAVY_TAIL_LEAST characters or more, so that what becomes of it depends on no letter of
 * the front but its vowels. A shorter ending takes the compound's last characters with it: cut the
 * compound that many characters before its end, and put these before every ending. It pays from about
 * ten tails on, behind a long front from about twenty; for fewer, fannavy_stage of each word is as
 * fast or faster.
 *
 *   count       how many tails there are. So many entries of each buffer are written, in the order of
 *               the tails; those from `count` on stay as they were
 *   lengths[i]  how many bytes of the word are kept, the front's among them: `length` of fannavy_stage
 *   answers[i]  1 where an ending was removed, 0 where none was: its `yes`
 *   flags[i]    1 for true, 0 for false: its `flag`
 *
 * `lengths_room`, `answers_room` and `flags_room` are the sizes of the three buffers, each
 * FANNAVY_TAILS or more however few the tails are. The three overlap neither each other nor the front
 * nor the tails; the front and the tails are only read, and may overlap each other.
 *
 * Refuses by the numbers 1, 2, 6 and 3, in this order: 1 and 2 where the front, a tail or a word is
 * over FANNAVY_LIMIT or not UTF-8, however many tails there are; 6 where there are more than
 * FANNAVY_TAILS, or one has fewer than FANNAVY_TAIL_LEAST characters; 3 where a buffer is too short. So
 * one tail can refuse all the others with it.
 */
FannavyBatch fannavy_batch(const uint8_t *front, size_t front_n, const uint8_t *tails,
                           size_t tails_n, uint8_t *lengths, size_t lengths_room, uint8_t *answers,
                           size_t answers_room, uint8_t *flags, size_t flags_room);

/*
 * Null pointers. The archive takes references, which are never null, not even to nothing. So from here on
 * a call's name, and its address, mean the function below that has an underscore more: where a length is
 * 0, it lends the archive a byte of its own, which is neither read nor written.
 */
#ifdef __cplusplus
#define FANNAVY_INLINE_ inline
#else
#define FANNAVY_INLINE_ static inline
#endif

/* A call on a word. */
#define FANNAVY_READS_(Answer, call)                                                                   \
    FANNAVY_INLINE_ Answer call##_(const uint8_t *w, size_t n) {                                       \
        uint8_t none = 0;                                                                              \
        return call(n == 0 ? &none : w, n);                                                            \
    }

/* A call on a word and an output. */
#define FANNAVY_WRITES_(Answer, call)                                                                  \
    FANNAVY_INLINE_ Answer call##_(const uint8_t *w, size_t n, uint8_t *out, size_t room) {            \
        uint8_t none = 0;                                                                              \
        return call(n == 0 ? &none : w, n, room == 0 ? &none : out, room);                             \
    }

FANNAVY_READS_(bool, fannavy_is_utf8)
FANNAVY_READS_(FannavySyllable, fannavy_syllable)
FANNAVY_READS_(FannavyStage, fannavy_stage)
FANNAVY_WRITES_(FannavyPostlude, fannavy_postlude)
FANNAVY_WRITES_(FannavyFold, fannavy_fold)
FANNAVY_WRITES_(FannavyPass, fannavy_pass)
FANNAVY_WRITES_(FannavyNoun, fannavy_noun)
FANNAVY_WRITES_(FannavyWhole, fannavy_whole)
FANNAVY_WRITES_(FannavyPieces, fannavy_pieces)
FANNAVY_WRITES_(FannavyPiecesText, fannavy_pieces_text)

FANNAVY_INLINE_ FannavyBatch fannavy_batch_(const uint8_t *front, size_t front_n, const uint8_t *tails,
                                            size_t tails_n, uint8_t *lengths, size_t lengths_room,
                                            uint8_t *answers, size_t answers_room, uint8_t *flags,
                                            size_t flags_room) {
    uint8_t none = 0;
    return fannavy_batch(front_n == 0 ? &none : front, front_n, tails_n == 0 ? &none : tails, tails_n,
                         lengths_room == 0 ? &none : lengths, lengths_room,
                         answers_room == 0 ? &none : answers, answers_room,
                         flags_room == 0 ? &none : flags, flags_room);
}

#define fannavy_is_utf8 fannavy_is_utf8_
#define fannavy_syllable fannavy_syllable_
#define fannavy_stage fannavy_stage_
#define fannavy_postlude fannavy_postlude_
#define fannavy_fold fannavy_fold_
#define fannavy_pass fannavy_pass_
#define fannavy_noun fannavy_noun_
#define fannavy_whole fannavy_whole_
#define fannavy_pieces fannavy_pieces_
#define fannavy_pieces_text fannavy_pieces_text_
#define fannavy_batch fannavy_batch_

#undef FANNAVY_WRITES_
#undef FANNAVY_READS_
#undef FANNAVY_INLINE_

#ifdef __cplusplus
}
#endif

#endif
