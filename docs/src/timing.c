/* Times the proved search for ./bench: timing SET RECORDS ANSWER, on x86-64, with the files of docs/src/bin/timing.rs. Prints the
   microseconds of processor time of the search with all clusters allowed, whose answer is written, and of one with none allowed: that
   one makes all checks, weighs every cluster and passes over the tables without a split (14); what is left is the split loops'. */
#include <stdio.h>
#include <string.h>
#include <time.h>

#include "speciestree.h"

enum { species = 16, most = 4096, entries = 1 << species };

static uint16_t genes[32 * most], splits[entries];
static uint8_t allowed[entries];
static uint32_t scores[entries];
static uint64_t ties[entries];

/* The search of the set; only that of the set `ties` counts them. */
static st_Tied search(const char *set, size_t count) {
    if (strcmp(set, "ties") == 0)
        return st_search_ties(species, genes, 32 * count, count, allowed, entries, scores, entries, splits, entries, ties, entries);
    st_Found found = (strcmp(set, "unrooted") == 0 ? st_search_unrooted : st_search)(species, genes, 32 * count, count, allowed, entries, scores,
                                                                                    entries, splits, entries);
    st_Tied none = {found.number, found.place, found.score, 0, {0}};
    memcpy(none.numbers, found.numbers, sizeof none.numbers);
    return none;
}

/* The time of a search where each cluster has the byte; clock() counts microseconds on Linux. */
static long timed(const char *set, size_t count, int byte, st_Tied *found) {
    memset(allowed, byte, sizeof allowed);
    clock_t begin = clock();
    *found = search(set, count);
    return (long)(clock() - begin);
}

static int write_answer(FILE *answer, const st_Tied *found) {
    fwrite(&found->score, sizeof found->score, 1, answer);
    fwrite(&found->ties, sizeof found->ties, 1, answer);
    fwrite(found->numbers, sizeof found->numbers, 1, answer);
    fwrite(scores, sizeof scores, 1, answer);
    fwrite(splits, sizeof splits, 1, answer);
    fwrite(ties, sizeof ties, 1, answer);
    return fclose(answer);
}

int main(int argc, char **argv) {
    st_Tied found;
    FILE *records = argc == 4 ? fopen(argv[2], "rb") : NULL, *answer = argc == 4 ? fopen(argv[3], "wb") : NULL;
    if (records == NULL || answer == NULL) {
        fprintf(stderr, "usage: timing SET RECORDS ANSWER\n");
        return 2;
    }
    size_t bytes = fread(genes, 1, sizeof genes, records), count = bytes / 64;
    if (bytes % 64 != 0 || fgetc(records) != EOF) {
        fprintf(stderr, "docs/src/timing.c: %s has over 4,096 records, or a part of one\n", argv[2]);
        return 1;
    }
    long time = timed(argv[1], count, 1, &found);
    if (found.number != 0) {
        fprintf(stderr, "docs/src/timing.c: the search refuses the set %s: %u at %zu\n", argv[1], (unsigned)found.number, found.place);
        return 1;
    }
    if (write_answer(answer, &found) != 0) return 1;
    long first = timed(argv[1], count, 0, &found);
    if (found.number != 14) return 1;
    printf("%ld %ld\n", time, first);
    return 0;
}
