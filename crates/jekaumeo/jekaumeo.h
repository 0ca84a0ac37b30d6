/* The calls of libjekaumeo.a and, from "The audit" on, of libjekaumeo_audit.a for C. A slice is a pointer, which is not null, and a number of elements; no slice that is written may overlap another.
   Refusal numbers and answers: docs/REFERENCE.md, "Exports". */
#ifndef JEKAUMEO_H
#define JEKAUMEO_H

#include <stddef.h>
#include <stdint.h>

#ifdef __cplusplus
extern "C" {
#endif

/* A catalogue: identifier bytes, identifier ends, base bytes, base ends, topology marks (0 linear, 1 closed). */
#define JEKAUMEO_CATALOGUE \
    const uint8_t *identifiers, size_t identifiers_len, const size_t *identifier_ends, size_t identifier_ends_len, \
    const uint8_t *bases, size_t bases_len, const size_t *base_ends, size_t base_ends_len, \
    const uint8_t *marks, size_t marks_len

/* An index: keys, ranks, positions. */
#define JEKAUMEO_INDEX \
    const uint64_t *keys, size_t keys_len, const uint64_t *ranks, size_t ranks_len, \
    const uint64_t *positions, size_t positions_len

/* answer: refusal, mapped targets, postings */
uint64_t jekaumeo_plan(uint64_t *answer, size_t answer_len, JEKAUMEO_CATALOGUE, size_t q);

/* answer: refusal, postings built */
uint64_t jekaumeo_build(uint64_t *answer, size_t answer_len, uint64_t *keys, size_t keys_len, uint64_t *ranks,
                        size_t ranks_len, uint64_t *positions, size_t positions_len, JEKAUMEO_CATALOGUE, size_t q);

uint64_t jekaumeo_check_index(JEKAUMEO_INDEX, JEKAUMEO_CATALOGUE, size_t q);

/* answer: refusal, state, groups, lookups, hits, examined, comparisons, seen */
uint64_t jekaumeo_map(uint64_t *answer, size_t answer_len, uint64_t *entries, size_t entries_len, JEKAUMEO_INDEX,
                      JEKAUMEO_CATALOGUE, size_t q, const uint8_t *read, size_t read_len, uint64_t limit);

/* rows: an answer of eight numbers for each read; entries: an equal share for each */
uint64_t jekaumeo_map_reads(uint64_t *rows, size_t rows_len, uint64_t *entries, size_t entries_len, JEKAUMEO_INDEX,
                            JEKAUMEO_CATALOGUE, size_t q, const uint8_t *reads, size_t reads_len,
                            const size_t *read_ends, size_t read_ends_len, uint64_t limit);

/* The audit. Its state is a buffer of JEKAUMEO_STATE numbers, the first of which names this layout: the opening writes it,
   `fragment` and `fragments` read and write it, `finish` reads it. Counters: a number of each kind for each target. */
#define JEKAUMEO_STATE 32

#define JEKAUMEO_COUNTERS \
    uint64_t *placements, size_t placements_len, uint64_t *singles, size_t singles_len, uint64_t *multi, size_t multi_len

/* Counters that are only read. */
#define JEKAUMEO_KEPT_COUNTERS \
    const uint64_t *placements, size_t placements_len, const uint64_t *singles, size_t singles_len, \
    const uint64_t *multi, size_t multi_len

/* Two reads of a fragment: bases and qualities of each, its role (0 S, 1 R1, 2 R2) and whether it has qualities (0, 1);
   the ordinal, and how many reads the fragment has. Role and quality mark of the second are tested also where it has one. */
#define JEKAUMEO_FRAGMENT \
    const uint8_t *first, size_t first_len, const uint8_t *first_qualities, size_t first_qualities_len, \
    const uint8_t *second, size_t second_len, const uint8_t *second_qualities, size_t second_qualities_len, \
    uint8_t first_role, uint8_t first_mark, uint8_t second_role, uint8_t second_mark, uint64_t ordinal, size_t count

/* mode: 0 single reads, 1 pairs; remap: 0 off, 1 on */
uint64_t jekaumeo_open(uint64_t *state, size_t state_len, JEKAUMEO_COUNTERS, JEKAUMEO_INDEX, JEKAUMEO_CATALOGUE,
                       uint8_t mode, uint8_t remap, uint8_t floor, uint64_t limit);

uint64_t jekaumeo_plain_open(uint64_t *state, size_t state_len, JEKAUMEO_COUNTERS, JEKAUMEO_CATALOGUE, uint8_t mode,
                             uint8_t remap, uint8_t floor, uint64_t limit);

/* answer: a row of eight numbers for each read, with room for two */
uint64_t jekaumeo_fragment(uint64_t *answer, size_t answer_len, uint64_t *state, size_t state_len, uint64_t *entries,
                           size_t entries_len, JEKAUMEO_COUNTERS, JEKAUMEO_INDEX, JEKAUMEO_CATALOGUE,
                           JEKAUMEO_FRAGMENT);

uint64_t jekaumeo_plain_fragment(uint64_t *answer, size_t answer_len, uint64_t *state, size_t state_len,
                                 uint64_t *entries, size_t entries_len, JEKAUMEO_COUNTERS, JEKAUMEO_CATALOGUE,
                                 JEKAUMEO_FRAGMENT);

/* rows: a row for each read; entries: an equal share for each fragment; counts: the reads of each fragment */
uint64_t jekaumeo_fragments(uint64_t *rows, size_t rows_len, uint64_t *state, size_t state_len, uint64_t *entries,
                            size_t entries_len, JEKAUMEO_COUNTERS, JEKAUMEO_INDEX, JEKAUMEO_CATALOGUE,
                            const uint64_t *ordinals, size_t ordinals_len, const uint64_t *counts, size_t counts_len,
                            const uint8_t *roles, size_t roles_len, const uint8_t *reads, size_t reads_len,
                            const size_t *read_ends, size_t read_ends_len, const uint8_t *quality_marks,
                            size_t quality_marks_len, const uint8_t *qualities, size_t qualities_len,
                            const size_t *quality_ends, size_t quality_ends_len);

/* answer, JEKAUMEO_SHEET numbers: refusal, mode, remap, eighteen counts (six states of S, of R1, of R2), status,
   placements, singles, multi */
#define JEKAUMEO_SHEET 25

uint64_t jekaumeo_finish(uint64_t *answer, size_t answer_len, JEKAUMEO_KEPT_COUNTERS, JEKAUMEO_INDEX,
                         JEKAUMEO_CATALOGUE, const uint64_t *state, size_t state_len);

uint64_t jekaumeo_plain_finish(uint64_t *answer, size_t answer_len, JEKAUMEO_KEPT_COUNTERS, JEKAUMEO_CATALOGUE,
                               const uint64_t *state, size_t state_len);

/* rows: status, placements, singles, multi of each target; sheet: the answer of finish; the audited catalogue is the one
   that was lent to finish */
uint64_t jekaumeo_apply_to_unitigs(uint64_t *rows, size_t rows_len, JEKAUMEO_KEPT_COUNTERS,
                                   const uint8_t *audited_identifiers, size_t audited_identifiers_len,
                                   const size_t *audited_identifier_ends, size_t audited_identifier_ends_len,
                                   const uint8_t *audited_bases, size_t audited_bases_len,
                                   const size_t *audited_base_ends, size_t audited_base_ends_len,
                                   const uint8_t *audited_marks, size_t audited_marks_len, JEKAUMEO_CATALOGUE,
                                   const uint64_t *sheet, size_t sheet_len);

/* ---- The same calls with structs, over those above. An audit without an index (a null pointer) is the plain one. */

/* Target i has the identifier bytes and the bases up to its ends. */
typedef struct {
    const uint8_t *identifiers;
    size_t identifiers_len;
    const size_t *identifier_ends;
    const uint8_t *bases;
    size_t bases_len;
    const size_t *base_ends;
    const uint8_t *marks;
    size_t targets;
} jekaumeo_catalogue;

/* Columns of so many postings; before a build, of so many entries. */
typedef struct {
    uint64_t *keys, *ranks, *positions;
    size_t postings;
} jekaumeo_index;

/* One number of each kind for each target. */
typedef struct {
    uint64_t *placements, *singles, *multi;
    size_t targets;
} jekaumeo_counters;

/* A read; without qualities their pointer is null. */
typedef struct {
    const uint8_t *bases;
    size_t bases_len;
    const uint8_t *qualities;
    size_t qualities_len;
    uint8_t role;
} jekaumeo_read;

typedef struct {
    uint64_t *numbers;
    size_t len;
} jekaumeo_entries;

typedef struct {
    uint8_t mode, remap, floor;
    uint64_t limit;
} jekaumeo_settings;

#define JEKAUMEO_OF_CATALOGUE(c) \
    (c)->identifiers, (c)->identifiers_len, (c)->identifier_ends, (c)->targets, (c)->bases, (c)->bases_len, (c)->base_ends, \
        (c)->targets, (c)->marks, (c)->targets
#define JEKAUMEO_OF_INDEX(i) (i)->keys, (i)->postings, (i)->ranks, (i)->postings, (i)->positions, (i)->postings
#define JEKAUMEO_OF_COUNTERS(k) (k)->placements, (k)->targets, (k)->singles, (k)->targets, (k)->multi, (k)->targets
#define JEKAUMEO_OF_READ(r) \
    (r)->bases, (r)->bases_len, (r)->qualities ? (r)->qualities : (r)->bases, (r)->qualities ? (r)->qualities_len : 0

/* Builds the index, and sets its number of postings. */
static inline uint64_t jekaumeo_build_index(jekaumeo_index *i, const jekaumeo_catalogue *c, size_t q) {
    uint64_t built[2];
    uint64_t refusal = jekaumeo_build(built, 2, JEKAUMEO_OF_INDEX(i), JEKAUMEO_OF_CATALOGUE(c), q);
    if (!refusal)
        i->postings = (size_t)built[1];
    return refusal;
}

/* row: eight numbers */
static inline uint64_t jekaumeo_map_read(uint64_t *row, const jekaumeo_entries *e, const jekaumeo_index *i,
                                         const jekaumeo_catalogue *c, size_t q, const uint8_t *read, size_t read_len,
                                         uint64_t limit) {
    return jekaumeo_map(row, 8, e->numbers, e->len, JEKAUMEO_OF_INDEX(i), JEKAUMEO_OF_CATALOGUE(c), q, read, read_len, limit);
}

/* state: JEKAUMEO_STATE numbers, here and below */
static inline uint64_t jekaumeo_audit_open(uint64_t *state, const jekaumeo_counters *k, const jekaumeo_index *i,
                                           const jekaumeo_catalogue *c, const jekaumeo_settings *s) {
    if (!i)
        return jekaumeo_plain_open(state, JEKAUMEO_STATE, JEKAUMEO_OF_COUNTERS(k), JEKAUMEO_OF_CATALOGUE(c), s->mode,
                                   s->remap, s->floor, s->limit);
    return jekaumeo_open(state, JEKAUMEO_STATE, JEKAUMEO_OF_COUNTERS(k), JEKAUMEO_OF_INDEX(i), JEKAUMEO_OF_CATALOGUE(c),
                         s->mode, s->remap, s->floor, s->limit);
}

/* rows: sixteen numbers; reads: one, or two. Of more, only how many they are is looked at. */
static inline uint64_t jekaumeo_audit_fragment(uint64_t *rows, uint64_t *state, const jekaumeo_entries *e,
                                               const jekaumeo_counters *k, const jekaumeo_index *i,
                                               const jekaumeo_catalogue *c, uint64_t ordinal, const jekaumeo_read *reads,
                                               size_t count) {
    static const uint8_t none[1] = {0};
    const jekaumeo_read absent = {none, 0, none, 0, 0};
    const jekaumeo_read *a = count > 0 ? reads : &absent, *b = count > 1 ? reads + 1 : &absent;
    if (!i)
        return jekaumeo_plain_fragment(rows, 16, state, JEKAUMEO_STATE, e->numbers, e->len, JEKAUMEO_OF_COUNTERS(k),
                                       JEKAUMEO_OF_CATALOGUE(c), JEKAUMEO_OF_READ(a), JEKAUMEO_OF_READ(b), a->role,
                                       a->qualities != 0, b->role, b->qualities != 0, ordinal, count);
    return jekaumeo_fragment(rows, 16, state, JEKAUMEO_STATE, e->numbers, e->len, JEKAUMEO_OF_COUNTERS(k),
                             JEKAUMEO_OF_INDEX(i), JEKAUMEO_OF_CATALOGUE(c), JEKAUMEO_OF_READ(a), JEKAUMEO_OF_READ(b),
                             a->role, a->qualities != 0, b->role, b->qualities != 0, ordinal, count);
}

/* sheet: JEKAUMEO_SHEET numbers */
static inline uint64_t jekaumeo_audit_finish(uint64_t *sheet, const jekaumeo_counters *k, const jekaumeo_index *i,
                                             const jekaumeo_catalogue *c, const uint64_t *state) {
    if (!i)
        return jekaumeo_plain_finish(sheet, JEKAUMEO_SHEET, JEKAUMEO_OF_COUNTERS(k), JEKAUMEO_OF_CATALOGUE(c), state,
                                     JEKAUMEO_STATE);
    return jekaumeo_finish(sheet, JEKAUMEO_SHEET, JEKAUMEO_OF_COUNTERS(k), JEKAUMEO_OF_INDEX(i), JEKAUMEO_OF_CATALOGUE(c),
                           state, JEKAUMEO_STATE);
}

/* rows: four numbers for each target of c */
static inline uint64_t jekaumeo_audit_apply(uint64_t *rows, const jekaumeo_counters *k, const jekaumeo_catalogue *audited,
                                            const jekaumeo_catalogue *c, const uint64_t *sheet) {
    return jekaumeo_apply_to_unitigs(rows, 4 * c->targets, JEKAUMEO_OF_COUNTERS(k), JEKAUMEO_OF_CATALOGUE(audited),
                                     JEKAUMEO_OF_CATALOGUE(c), sheet, JEKAUMEO_SHEET);
}

#ifdef __cplusplus
}
#endif

#endif
