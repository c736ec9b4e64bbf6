/* Document 01's example through the entry split_file: its units and pieces, and a refusal. Valid as C99 and as C++. */
#include <stdio.h>
#include <string.h>

#include "mizhakkon.h"

/* Names `.data` and `b.c`; section 0 at 0x1000 with 16 bytes, 1 to 9 and then zeros; the partial split 0x1008..0x1010 of `b.c`. */
static const uint8_t file[] = {
    5, 0, 0, 0, 1, 0, '.', 'd', 'a', 't', 'a',
    3, 0, 0, 0, 1, 0, 'b', '.', 'c',
    31, 0, 0, 0, 2, 0, 0, 0, 1, 0, 0x10, 0, 0, 16, 0, 0, 0, 0, 0, 0, 0, 1, 2, 3, 4, 5, 6, 7, 8, 9, 0, 0, 0, 0, 0, 0, 0,
    19, 0, 0, 0, 5, 0, 0, 0, 0x08, 0x10, 0, 0, 0x10, 0x10, 0, 0, 1, 0, 0, 0, 0, 0, 0, 0xFF, 0xFF,
};

static const char right[] =
    "unit 2 auto_00_00001000_data\n"
    "unit 1\n"
    "piece 0 of unit 0: 00001000 8 from 65535\n"
    "piece 0 of unit 1: 00001008 8 from 0\n"
    "refused 1 0 00000003\n";

static unsigned number(const uint8_t *at, int bytes)
{
    unsigned value = 0;

    while (bytes-- > 0)
        value = value << 8 | at[bytes];
    return value;
}

/* Lends one unit's, one gap's and two pieces' worth of bytes, and more than enough for the rest. */
static uint64_t split(size_t file_len, char *out)
{
    uint8_t ends[8], bytes[128], splits[21 * 4], units[8 * 4], pieces[30 * 4], symbols[12], relocations[8], counts[14];
    uint64_t answer = split_file(file, file_len, ends, sizeof ends, bytes, sizeof bytes, splits, sizeof splits,
                                 units, sizeof units, pieces, sizeof pieces, symbols, sizeof symbols,
                                 relocations, sizeof relocations, counts, sizeof counts);
    unsigned i;

    if (answer != MIZHAKKON_ACCEPTED) {
        sprintf(out, "refused %u %u %08lX\n", (unsigned)mizhakkon_number(answer), (unsigned)mizhakkon_section(answer),
                (unsigned long)mizhakkon_address(answer));
        return answer;
    }
    for (i = 0; i < number(counts + 6, 2); i++) {
        unsigned name = number(units + 8 * i, 2);

        /* The file has two names; those that were added are numbered on from them. */
        if (name >= 2)
            out += sprintf(out, "unit %u %.*s\n", name, (int)number(ends, 2), (const char *)bytes);
        else
            out += sprintf(out, "unit %u\n", name);
    }
    for (i = 0; i < number(counts + 8, 2); i++) {
        const uint8_t *piece = pieces + 30 * i;

        out += sprintf(out, "piece %u of unit %u: %08X %u from %u\n", number(piece + 2, 2), number(piece, 2),
                       number(piece + 8, 4), number(piece + 12, 4), number(piece + 28, 2));
    }
    return answer;
}

int main(void)
{
    char given[512] = "";
    int differ;

    split(sizeof file, given);
    split(sizeof file - 1, given + strlen(given));
    differ = strcmp(given, right) != 0;
    if (differ)
        printf("given:\n%sright:\n%s", given, right);
    printf("split_file.c: 2 compared, %d differ\n", differ);
    return differ;
}
