/* Job records from roots. Each line of standard input has what a record is to say, as the program `jobs` reads it: the
   field degree, a cutoff and the roots, strictly ascending. Prints the record's bytes, and what is read back from them:
   the roots that the whole call finds, each with its multiplicity, and the steps at the record's cutoff. Or the number
   under which the line is refused. */
#include "locator.h"
#include "numbers.h"
#include <stdio.h>

enum { HEAD = 5 };

/* What a refusal of the writer says. */
static const char *reason(uint16_t outcome)
{
    switch (outcome) {
    case 1: return "there is no field of this degree";
    case 3: return "more than 64 roots";
    case 4: return "a root is no element of the field";
    case 25: return "the roots are not strictly ascending";
    case 6: return "the cutoff is above 3";
    case 7: return "the room is shorter than the record";
    default: return "a refusal of another call";
    }
}

/* The bytes of a record, in hex. */
static void print_bytes(const uint8_t *record, size_t length)
{
    for (size_t i = 0; i < length; i++)
        printf("%s%02X", i == 0 ? "" : " ", record[i]);
    printf("\n");
}

/* What a record says: field, cutoff and count stand in its head, the coefficients behind it, low byte first. */
static void read_back(const uint8_t *record)
{
    uint16_t coeffs[LOCATOR_COEFFICIENTS], roots[LOCATOR_ROOTS], mults[LOCATOR_ROOTS];
    size_t n = record[4];
    for (size_t i = 0; i < n; i++)
        coeffs[i] = (uint16_t)(record[HEAD + 2 * i] | record[HEAD + 2 * i + 1] << 8);
    locator_found found = locator_solve(record[2], coeffs, n, record[3], roots, LOCATOR_ROOTS, mults, LOCATOR_ROOTS);
    printf("field %u, outcome %u, steps %u, roots, %u:", record[2], found.outcome, found.steps, found.count);
    for (size_t i = 0; i < found.count; i++)
        printf(mults[i] == 1 ? " %u" : " %u times %u", roots[i], mults[i]);
    printf("\n");
}

/* The lines of a record. The room is enough for any. */
static void print_record(uint16_t m, uint16_t cutoff, const uint16_t *roots, size_t n)
{
    uint8_t record[LOCATOR_RECORD];
    locator_written written = locator_write(m, cutoff, roots, n, record, LOCATOR_RECORD);
    if (written.outcome != 0) {
        printf("refused under %u: %s\n", written.outcome, reason(written.outcome));
        return;
    }
    print_bytes(record, written.length);
    read_back(record);
}

int main(void)
{
    char line[1024];
    while (fgets(line, sizeof line, stdin) != NULL) {
        uint16_t word[3 + LOCATOR_ROOTS];
        size_t n = numbers(line, word, sizeof word / sizeof *word);
        if (n >= 2)
            print_record(word[0], word[1], word + 2, n - 2);
    }
    return 0;
}
