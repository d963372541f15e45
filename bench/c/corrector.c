/*
 * Block correctors beside each other, for bench/corrector: locator_correct, and Linux lib/bch.c in its usual build and
 * in its builds for one strength. All get the same codewords with the same bits wrong, drawn from a fixed seed.
 * The rules of tests/c/block_rules.h judge what they leave.
 *
 *   corrector check           a line for each set and corrector: strength, errors, corrector, right answers, words
 *   corrector time            the same with nanoseconds a word in place of the answers
 *   corrector pass T E WHO K  K passes, 0 or 1, over the set, for counting: the difference of two counts is one pass
 *   corrector beyond N        a line for each strength, number of errors above it up to 12, and corrector, on N words:
 *                             strength, errors, corrector, words, how many it claims to have corrected, and how many
 *                             of these are no codeword, or not at the distance told
 *
 * A set of strength T has up to T wrong bits in each word, or T + 1. Of the latter those words are taken that no
 * corrector brings to a codeword within T bits; at strength 1, where every word is within a bit of a codeword, those
 * where that bit is in use.
 */
#include "corrector.h"
#include "../../tests/c/block_rules.h"
#include "locator.h"
#include "measure.h"
#include <stdio.h>
#include <stdlib.h>
#include <string.h>

enum { WORDS = 64, CHUNK = 8, FARTHEST = 12 };
static const unsigned strengths[] = {1, 2, 4, 8};
enum { STRENGTHS = sizeof strengths / sizeof *strengths };

/* ---- the proved call ---- */

static unsigned strength;

/* it serves every strength */
static bool start_ours(unsigned t)
{
    strength = t;
    return true;
}

/* its layout is that of the words */
static void copy(const uint8_t *from, uint8_t *to)
{
    memcpy(to, from, BLOCK_BYTES);
}

/* the call */
static int correct_ours(uint8_t *block)
{
    locator_corrected c = locator_correct((uint16_t)strength, block, BLOCK_BYTES);
    return c.outcome == 0 ? c.flips : -1;
}

static const struct corrector ours = {"ours", start_ours, copy, copy, correct_ours};
static const struct corrector *const correctors[] = {
    &ours, &bch_usual, &bch_const_1, &bch_const_2, &bch_const_4, &bch_const_8,
};
enum { CORRECTORS = sizeof correctors / sizeof *correctors };

/* ---- words ---- */

/* a codeword, and what is received of it */
struct sample { uint8_t sent[BLOCK_BYTES], word[BLOCK_BYTES]; };

/* what the corrector makes of a word: flips, or -1; the word as it leaves it */
static int tried(const struct corrector *c, const uint8_t *word, uint8_t *left)
{
    _Alignas(64) uint8_t block[BLOCK_BYTES];
    c->load(word, block);
    int flips = c->correct(block);
    c->store(block, left);
    return flips;
}

/* is what the corrector claims true: a codeword, at the distance told, within t? */
static bool kept_word(int flips, unsigned t, const uint8_t *word, const uint8_t *left)
{
    return flips >= 0 && flips <= (int)t && (int)apart(word, left) == flips && is_codeword(left, t);
}

/* does the corrector bring the word to a codeword within t bits? It has been started */
static bool reached(const struct corrector *c, unsigned t, const uint8_t *word)
{
    uint8_t left[BLOCK_BYTES];
    return kept_word(tried(c, word, left), t, word, left);
}

/* a codeword in the bits in use, with so many of them wrong */
static void plant(unsigned t, unsigned errors, struct sample *s)
{
    unsigned bits = bits_in_use(t);
    memset(s->sent, 0, BLOCK_BYTES);
    for (unsigned j = 11 * t; j < bits; j++)
        if (draw(2))
            flip_bit(s->sent, j);
    locator_encode((uint16_t)t, s->sent, BLOCK_BYTES);
    memcpy(s->word, s->sent, BLOCK_BYTES);
    while (apart(s->sent, s->word) < errors) {
        unsigned j = draw(bits);
        if (bit_of(s->word, j) == bit_of(s->sent, j))
            flip_bit(s->word, j);
    }
}

/* may the word stand in its set? */
static bool fits(unsigned t, unsigned errors, const uint8_t *word)
{
    if (errors <= t)
        return true;
    return t == 1 ? reached(&bch_usual, t, word) : !reached(&bch_usual, t, word) && !reached(&ours, t, word);
}

/* the words of a set */
static void make_set(unsigned t, unsigned errors, struct sample *all)
{
    draw_set(100 * t + errors);
    bch_usual.start(t);
    ours.start(t);
    for (size_t i = 0; i < WORDS;) {
        plant(t, errors, &all[i]);
        i += fits(t, errors, all[i].word);
    }
}

/* ---- checking, timing, passes ---- */

/* how many answers are right: the codeword that was sent; turned away; at strength 1 with two errors any codeword */
static unsigned right_answers(const struct corrector *c, unsigned t, unsigned errors, const struct sample *all)
{
    unsigned right = 0;
    for (size_t i = 0; i < WORDS; i++) {
        uint8_t left[BLOCK_BYTES];
        int flips = tried(c, all[i].word, left);
        if (errors <= t)
            right += flips == (int)errors && apart(left, all[i].sent) == 0;
        else
            right += t == 1 ? kept_word(flips, t, all[i].word, left) : flips == -1;
    }
    return right;
}

/* a corrector in turn, its words in its own layout, and the least time of each chunk of them */
struct runner {
    const struct corrector *corrector;
    _Alignas(64) uint8_t given[WORDS][BLOCK_BYTES], blocks[WORDS][BLOCK_BYTES];
    double least[WORDS / CHUNK];
};

/* one round of a runner: each chunk from words that are as they were received */
static void time_round(struct runner *r)
{
    memcpy(r->blocks, r->given, sizeof r->blocks);
    for (size_t c = 0; c < WORDS / CHUNK; c++) {
        double t = now();
        for (size_t i = c * CHUNK; i < (c + 1) * CHUNK; i++)
            r->corrector->correct(r->blocks[i]);
        t = now() - t;
        if (t < r->least[c])
            r->least[c] = t;
    }
}

/* Correctors take turns; the least time of each chunk counts, so that other work on the machine disturbs little. */
static void time_set(unsigned t, unsigned errors, const struct sample *all)
{
    static struct runner runners[CORRECTORS];
    size_t count = 0;
    for (size_t k = 0; k < CORRECTORS; k++) {
        struct runner *r = &runners[count];
        r->corrector = correctors[k];
        if (!r->corrector->start(t))
            continue;
        for (size_t i = 0; i < WORDS; i++)
            r->corrector->load(all[i].word, r->given[i]);
        for (size_t c = 0; c < WORDS / CHUNK; c++)
            r->least[c] = 1e300;
        count++;
    }
    double begun = now();
    for (int round = 0; round < 15 || now() - begun < 5e8; round++)
        for (size_t k = 0; k < count; k++)
            time_round(&runners[k]);
    for (size_t k = 0; k < count; k++) {
        double sum = 0;
        for (size_t c = 0; c < WORDS / CHUNK; c++)
            sum += runners[k].least[c];
        printf("%u\t%u\t%s\t%.0f\n", t, errors, runners[k].corrector->name, sum / WORDS);
    }
}

/* right answers of every corrector on a set */
static void check_set(unsigned t, unsigned errors, const struct sample *all)
{
    for (size_t k = 0; k < CORRECTORS; k++) {
        const struct corrector *c = correctors[k];
        if (c->start(t))
            printf("%u\t%u\t%s\t%u\t%d\n", t, errors, c->name, right_answers(c, t, errors, all), WORDS);
    }
}

/* every set, checked or timed */
static int every_set(void (*then)(unsigned t, unsigned errors, const struct sample *all))
{
    static struct sample all[WORDS];
    for (size_t s = 0; s < STRENGTHS; s++)
        for (unsigned errors = 0; errors <= strengths[s] + 1; errors++) {
            make_set(strengths[s], errors, all);
            then(strengths[s], errors, all);
            fflush(stdout);
        }
    return 0;
}

/* no pass or one, for counting */
static int pass(unsigned t, unsigned errors, const char *who, int k)
{
    static struct sample all[WORDS];
    static struct runner r;
    for (size_t c = 0; c < CORRECTORS; c++)
        if (strcmp(correctors[c]->name, who) == 0)
            r.corrector = correctors[c];
    if (r.corrector == NULL || t < 1 || t > STRONGEST || errors > t + 1)
        return 2;
    make_set(t, errors, all);
    if (!r.corrector->start(t))
        return 2;
    for (size_t i = 0; i < WORDS; i++)
        r.corrector->load(all[i].word, r.blocks[i]);
    for (size_t i = 0; k == 1 && i < WORDS; i++)
        r.corrector->correct(r.blocks[i]);
    return 0;
}

/* ---- beyond the strength ---- */

/* what the correctors of strength t claim of words with more errors */
static void claims(unsigned t, unsigned errors, unsigned words)
{
    unsigned claimed[CORRECTORS] = {0}, untrue[CORRECTORS] = {0};
    bool served[CORRECTORS];
    for (size_t k = 0; k < CORRECTORS; k++)
        served[k] = correctors[k]->start(t);
    for (unsigned i = 0; i < words; i++) {
        struct sample s;
        uint8_t left[BLOCK_BYTES];
        plant(t, errors, &s);
        for (size_t k = 0; k < CORRECTORS; k++) {
            int flips = served[k] ? tried(correctors[k], s.word, left) : -1;
            claimed[k] += flips >= 0;
            untrue[k] += flips >= 0 && !kept_word(flips, t, s.word, left);
        }
    }
    for (size_t k = 0; k < CORRECTORS; k++)
        if (served[k])
            printf("%u\t%u\t%s\t%u\t%u\t%u\n", t, errors, correctors[k]->name, words, claimed[k], untrue[k]);
    fflush(stdout);
}

/* every strength, from one error too many to twelve */
static int beyond(unsigned words)
{
    state = 88172645463325252ull;
    for (size_t s = 0; s < STRENGTHS; s++)
        for (unsigned errors = strengths[s] + 1; errors <= FARTHEST; errors++)
            claims(strengths[s], errors, words);
    return 0;
}

int main(int argc, char **argv)
{
    if (argc == 2 && strcmp(argv[1], "check") == 0)
        return every_set(check_set);
    if (argc == 2 && strcmp(argv[1], "time") == 0)
        return every_set(time_set);
    if (argc == 6 && strcmp(argv[1], "pass") == 0)
        return pass((unsigned)atoi(argv[2]), (unsigned)atoi(argv[3]), argv[4], atoi(argv[5]));
    if (argc == 3 && strcmp(argv[1], "beyond") == 0)
        return beyond((unsigned)atoi(argv[2]));
    return 2;
}
