/* A recorder of blocks: writes a text to a file as blocks of 256 bytes, damages the file, and reads it back, each
   block corrected before its data are used. Its one argument is the file.

   Where a block is turned away its data are not used, and reading goes on behind it:
   - under 24 more bits are wrong than the strength mends. The block stays in the file as it is, since another reading
     of the tape may give a better one; its part of the text is lost.
   - under 22 the block is short, since the file was cut, and lost; or its last bit is set. That bit belongs to no
     word: it is cleared, and the block tried once more. */
#include "locator.h"
#include <stdio.h>
#include <string.h>
#include <unistd.h>

/* At strength 4 the check bits are bits 0 to 43; the 250 bytes of data stand behind them. */
enum { STRENGTH = 4, CHECKS = 11 * STRENGTH, BLOCKS = 6, ROOM = 250, LINE = 50, TEXT = BLOCKS * ROOM };

/* The bits that are damaged, and where the file is cut. */
static const struct { unsigned block, bit; } damages[] = {
    {1, 0}, {2, 44}, {2, 1000}, {2, 2045}, {2, 2046}, {3, 7}, {3, 2040}, {3, 2047},
    {4, 800}, {4, 801}, {4, 802}, {4, 803}, {4, 804}, {4, 805}, {4, 806}, {4, 807}, {4, 808},
};
enum { CUT = 5 * LOCATOR_WORD + 100 };

/* The text: five lines of fifty bytes for each block. */
static void compose(char *text)
{
    char line[LINE + 1];
    for (unsigned i = 0; i < TEXT / LINE; i++) {
        unsigned hour = 6 + i / 6, minute = i % 6 * 10;
        snprintf(line, sizeof line, "%02u:%02u the tape ran on, no stop, not a word missed\n", hour, minute);
        memcpy(text + i * LINE, line, LINE);
    }
}

/* Copies so many bits, from a bit of one memory to a bit of another. */
static void copy_bits(uint8_t *to, unsigned at, const uint8_t *from, unsigned first, unsigned count)
{
    for (unsigned k = 0; k < count; k++, at++, first++)
        to[at / 8] = (uint8_t)((to[at / 8] & ~(1u << at % 8)) | (from[first / 8] >> first % 8 & 1u) << at % 8);
}

/* Writes the text: the data of each block, then its check bits. Returns whether every block was encoded. */
static int record(FILE *tape, const char *text)
{
    int good = 1;
    for (size_t k = 0; k < BLOCKS; k++) {
        uint8_t word[LOCATOR_WORD] = {0};
        copy_bits(word, CHECKS, (const uint8_t *)text + k * ROOM, 0, 8 * ROOM);
        locator_encoded e = locator_encode(STRENGTH, word, sizeof word);
        good &= e.outcome == 0 && e.checks == CHECKS;
        fwrite(word, sizeof word, 1, tape);
    }
    return good;
}

/* Flips bits of the file and cuts it. Returns whether it could. */
static int damage(FILE *tape)
{
    for (size_t i = 0; i < sizeof damages / sizeof *damages; i++) {
        long at = (long)damages[i].block * LOCATOR_WORD + damages[i].bit / 8;
        fseek(tape, at, SEEK_SET);
        int byte = fgetc(tape) ^ 1 << damages[i].bit % 8;
        fseek(tape, at, SEEK_SET);
        fputc(byte, tape);
    }
    return fflush(tape) == 0 && ftruncate(fileno(tape), CUT) == 0;
}

/* Corrects a block in place and says what came of it. Returns whether its data may be used. */
static int mend(size_t number, uint8_t *word, size_t bytes)
{
    locator_corrected c = locator_correct(STRENGTH, word, bytes);
    printf("block %zu: ", number);
    if (c.outcome == 22 && bytes == LOCATOR_WORD) {
        printf("last bit cleared, ");
        word[LOCATOR_WORD - 1] &= 127;
        c = locator_correct(STRENGTH, word, bytes);
    }
    if (c.outcome == 0)
        printf("bits corrected: %u\n", c.flips);
    else if (c.outcome == 22)
        printf("turned away under 22, %zu bytes are no word\n", bytes);
    else
        printf("turned away under %u, no codeword within %d bits\n", c.outcome, STRENGTH);
    return c.outcome == 0;
}

/* Reads the file to its end. What is lost of the text is filled with question marks. */
static void play(FILE *tape, char *text)
{
    uint8_t word[LOCATOR_WORD];
    size_t bytes;
    memset(text, '?', TEXT);
    rewind(tape);
    for (size_t k = 0; k < BLOCKS && (bytes = fread(word, 1, sizeof word, tape)) > 0; k++)
        if (mend(k, word, bytes))
            copy_bits((uint8_t *)text + k * ROOM, 0, word, CHECKS, 8 * ROOM);
}

/* Prints the first line of each block as it came back, and how much of the text is as it was written. */
static void compare(const char *written, const char *played)
{
    unsigned same = 0, lost = 0;
    for (size_t k = 0; k < BLOCKS; k++)
        printf("%.*s\n", LINE - 1, played + k * ROOM);
    for (size_t i = 0; i < TEXT; i++) {
        same += written[i] == played[i];
        lost += written[i] != played[i] && played[i] == '?';
    }
    printf("%d bytes: %u as they were written, %u lost, %u wrong\n", TEXT, same, lost, TEXT - same - lost);
}

int main(int count, char **words)
{
    char text[TEXT], played[TEXT];
    FILE *tape = count == 2 ? fopen(words[1], "w+b") : NULL;
    if (tape == NULL) {
        fprintf(stderr, "blocks: it needs a file that can be written\n");
        return 2;
    }
    compose(text);
    if (!record(tape, text) || !damage(tape))
        return 1;
    play(tape, played);
    compare(text, played);
    return fclose(tape) == 0 ? 0 : 1;
}
