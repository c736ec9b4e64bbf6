/* growth COUNT PLACED GIVEN: 64 calls of split_alignment on COUNT symbols and 1,024 splits, for every 16th split. The symbols are sorted if PLACED is 1, and lie
   in no section if it is 0; a split asks the range of its symbols unless its alignment is GIVEN. growth.sh counts the instructions of the calls under
   callgrind; what a part costs is a difference. */
#include "../../include/mizhakkon.h"
#include <stdint.h>
#include <stdio.h>
#include <stdlib.h>

enum { SPLITS = 1024, BASE = 0x1000 };

static uint8_t symbols[4096 * 20], splits[SPLITS * 21];

static void put(uint8_t *at, uint32_t value, int width) {
    for (int i = 0; i < width; i++)
        at[i] = (uint8_t)(value >> (8 * i));
}

int main(int argc, char **argv) {
    if (argc != 4)
        return 2;
    uint32_t count = (uint32_t)atoi(argv[1]);
    int placed = atoi(argv[2]), given = atoi(argv[3]);
    if (count < 1 || count > 4096)
        return 2;
    /* each symbol has 16 bytes of the section; they come in an order that is far from sorted */
    uint32_t size = count * 16;
    for (uint32_t i = 0; i < count; i++) {
        uint32_t slot = (uint32_t)((uint64_t)i * 2654435761u % count);
        uint8_t *at = symbols + 20 * i;
        put(at, 0, 2);
        put(at + 2, placed ? 0 : 0xFFFF, 2);
        put(at + 4, BASE + 16 * slot, 4);
        put(at + 8, 4, 4);
        put(at + 12, 1, 1);
        put(at + 13, 1, 1);
    }
    for (uint32_t i = 0; i < SPLITS; i++) {
        uint8_t *at = splits + 21 * i;
        uint32_t from = (uint32_t)((uint64_t)size * i / SPLITS / 16 * 16);
        uint32_t to = (uint32_t)((uint64_t)size * (i + 1) / SPLITS / 16 * 16);
        put(at + 2, BASE + from, 4);
        put(at + 6, BASE + to, 4);
        put(at + 12, given ? 8 : 0, 4);
        put(at + 17, 0xFFFF, 2);
    }
    uint8_t ends[2] = {1, 0}, name[1] = {'a'}, section[15] = {0, 0, 3};
    put(section + 3, BASE, 4);
    put(section + 7, size, 4);
    uint8_t alignment[4];
    for (uint32_t i = 0; i < SPLITS; i += 16) {
        uint64_t answer = split_alignment(ends, sizeof ends, name, sizeof name, section, sizeof section, 0, 0, 0, 0, symbols, 20 * count,
                                          splits, sizeof splits, (uint16_t)i, alignment, sizeof alignment);
        if (answer != 0 || alignment[0] != 8) {
            printf("split %u: %llx\n", i, (unsigned long long)answer);
            return 1;
        }
    }
    return 0;
}
