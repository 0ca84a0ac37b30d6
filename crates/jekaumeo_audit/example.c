/* Audits a pair over one target of 20 bases, and prints its sheet: R1 lies at 0 on '+', R2 at 4 on '-'.
   (cd crates/jekaumeo && rt lib) && (cd crates/jekaumeo_audit && rt lib) &&
   cc -Icrates/jekaumeo crates/jekaumeo_audit/example.c crates/jekaumeo_audit/out/libjekaumeo_audit.a crates/jekaumeo/out/libjekaumeo.a \
      -o audit && ./audit */
#include "jekaumeo.h"
#include <stdio.h>

int main(void) {
    const size_t identifier_ends[] = {1}, base_ends[] = {20};
    const jekaumeo_catalogue target = {(const uint8_t *)"t", 1, identifier_ends, (const uint8_t *)"ACGGTCATTGCAGGACTTCA", 20,
                                       base_ends, (const uint8_t[]){0}, 1};
    const jekaumeo_read pair[] = {{(const uint8_t *)"ACGGTCATTGCAGGAC", 16, NULL, 0, 1},
                                  {(const uint8_t *)"TGAAGTCCTGCAATGA", 16, NULL, 0, 2}};
    const jekaumeo_settings settings = {.mode = 1, .remap = 1, .floor = 0, .limit = 10};
    uint64_t keys[6], ranks[6], positions[6], placements[1], singles[1], multi[1];
    uint64_t state[JEKAUMEO_STATE], rows[16], numbers[2 * 10 * 4], sheet[JEKAUMEO_SHEET], row[4];
    jekaumeo_index index = {keys, ranks, positions, 6};
    const jekaumeo_counters counters = {placements, singles, multi, 1};
    const jekaumeo_entries entries = {numbers, 80};

    if (jekaumeo_build_index(&index, &target, 15))
        return 1;
    if (jekaumeo_audit_open(state, &counters, &index, &target, &settings))
        return 1;
    if (jekaumeo_audit_fragment(rows, state, &entries, &counters, &index, &target, 0, pair, 2))
        return 1;
    for (size_t i = 0; i < 2; i++) {
        const uint64_t *group = numbers + 40 * i;
        printf("R%d state %d at %d%c\n", (int)i + 1, (int)rows[8 * i + 1], (int)group[1], group[3] ? '-' : '+');
    }
    if (jekaumeo_audit_finish(sheet, &counters, &index, &target, state))
        return 1;
    if (jekaumeo_audit_apply(row, &counters, &target, &target, sheet))
        return 1;
    printf("run: status %d, placements %d, singles %d, multi %d\n", (int)sheet[21], (int)sheet[22], (int)sheet[23],
           (int)sheet[24]);
    printf("t: status %d, placements %d, singles %d, multi %d\n", (int)row[0], (int)row[1], (int)row[2], (int)row[3]);
    return 0;
}
