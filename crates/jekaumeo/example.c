/* Maps two reads to one target: ACG has four groups, AAA none.
   (cd crates/jekaumeo && rt lib) && cc crates/jekaumeo/example.c crates/jekaumeo/out/libjekaumeo.a -o example && ./example */
#include "jekaumeo.h"
#include <stdio.h>

int main(void) {
    const size_t identifier_ends[] = {1}, base_ends[] = {8};
    const jekaumeo_catalogue targets = {(const uint8_t *)"t", 1, identifier_ends, (const uint8_t *)"ACGTACGT", 8, base_ends,
                                        (const uint8_t[]){0}, 1};
    uint64_t keys[6], ranks[6], positions[6], row[8], numbers[10 * 4];
    jekaumeo_index index = {keys, ranks, positions, 6};
    const jekaumeo_entries entries = {numbers, 40};
    const char *reads[] = {"ACG", "AAA"};

    if (jekaumeo_build_index(&index, &targets, 3))
        return 1;
    for (int i = 0; i < 2; i++) {
        if (jekaumeo_map_read(row, &entries, &index, &targets, 3, (const uint8_t *)reads[i], 3, 10))
            return 1;
        printf("state %d, groups", (int)row[1]);
        for (size_t k = 0; k < row[2]; k++)
            printf(" %d%c", (int)numbers[4 * k + 1], numbers[4 * k + 3] ? '-' : '+');
        printf("\n");
    }
    return 0;
}
