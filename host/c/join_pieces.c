/* The pieces of document 01's example put back by the entry join_pieces, in another order than the walk's; and the refusals 80, 82 and 83. Valid as C99 and as C++. */
#include <stdio.h>
#include <string.h>

#include "mizhakkon.h"

#define STAYS 0xAA /* lies in the lent bytes before a call */

/* The name `.data`; section 0 at 0x1000 with 16 bytes. */
static const uint8_t ends[] = {5, 0};
static const uint8_t names[] = {'.', 'd', 'a', 't', 'a'};
static const uint8_t sections[] = {0, 0, 1, 0, 0x10, 0, 0, 16, 0, 0, 0, 0, 0, 0, 0};

/* Records of kind 7: 0x1008 with 9 and zeros; 0x1000 with 1 to 8; 0x1007 with one byte, a byte 8 that agrees and a byte 7 that doesn't; 0x100F with two bytes. */
static const uint8_t high[] = {14, 0, 0, 0, 7, 0, 0, 0, 0x08, 0x10, 0, 0, 9, 0, 0, 0, 0, 0, 0, 0};
static const uint8_t low[] = {14, 0, 0, 0, 7, 0, 0, 0, 0x00, 0x10, 0, 0, 1, 2, 3, 4, 5, 6, 7, 8};
static const uint8_t agrees[] = {7, 0, 0, 0, 7, 0, 0, 0, 0x07, 0x10, 0, 0, 8};
static const uint8_t differs[] = {7, 0, 0, 0, 7, 0, 0, 0, 0x07, 0x10, 0, 0, 7};
static const uint8_t past[] = {8, 0, 0, 0, 7, 0, 0, 0, 0x0F, 0x10, 0, 0, 0, 0};

static const uint8_t image[] = {1, 2, 3, 4, 5, 6, 7, 8, 9, 0, 0, 0, 0, 0, 0, 0};

static int compared, differ;

/* Joins high, low and one more piece, with so many bytes lent, and expects this number; accepted are the image and its size, and a byte behind each stays. */
static void run(const uint8_t *more, size_t more_len, size_t lent, unsigned number)
{
    uint8_t pieces[sizeof high + sizeof low + 14], joined[17], size[9], right[17] = {0}, right_size[9] = {0};
    size_t length = 0;
    uint64_t answer;

    memcpy(pieces + length, high, sizeof high);
    length += sizeof high;
    memcpy(pieces + length, low, sizeof low);
    length += sizeof low;
    memcpy(pieces + length, more, more_len);
    length += more_len;
    memset(joined, STAYS, sizeof joined);
    memset(size, STAYS, sizeof size);
    memset(right + lent, STAYS, sizeof right - lent);
    if (number == 0) {
        memcpy(right, image, sizeof image);
        right[16] = STAYS;
        right_size[0] = 16;
        right_size[8] = STAYS;
    }
    answer = join_pieces(ends, sizeof ends, names, sizeof names, sections, sizeof sections, pieces, length, joined, lent, size, sizeof size);
    compared++;
    if (mizhakkon_number(answer) != number || memcmp(joined, right, sizeof right) != 0 || memcmp(size, right_size, sizeof right_size) != 0) {
        printf("refusal %u is right, given %u, or other bytes\n", number, (unsigned)mizhakkon_number(answer));
        differ++;
    }
}

int main(void)
{
    run(agrees, sizeof agrees, 17, 0);
    run(agrees, sizeof agrees, 16, 0);
    run(agrees, sizeof agrees, 15, MIZHAKKON_SHORT_OUTPUT);
    run(past, sizeof past, 16, MIZHAKKON_NO_BYTES);
    run(differs, sizeof differs, 16, MIZHAKKON_DIFFER);
    printf("join_pieces.c: %d compared, %d differ\n", compared, differ);
    return differ > 0;
}
