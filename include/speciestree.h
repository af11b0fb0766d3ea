/* The library for C and C++: crates/capi/src/lib.rt has the same names, with the promise of each. Link crates/capi/out/libcapi.a,
   which `rt lib` in crates/capi writes. A slice is a pointer and a length. docs/CALLS.md says of each call what it refuses, with which
   number and place, and what then stands in the lent buffers. */
#ifndef SPECIESTREE_H
#define SPECIESTREE_H

#include <stddef.h>
#include <stdint.h>

#ifdef __cplusplus
extern "C" {
#endif

/* A tree's record: the count, the clusters in rising order, zeros. */
typedef struct {
    uint16_t numbers[32];
} st_Record;

typedef struct {
    uint32_t number;
    size_t place;
    size_t value;
} st_Reply;

typedef struct {
    uint32_t number;
    size_t place;
    size_t next;
    uint16_t numbers[32];
} st_Reading;

typedef struct {
    uint32_t number;
    size_t place;
    size_t score;
    uint16_t numbers[32];
} st_Found;

/* ties: how many binary trees over the allowed clusters reach the score, the one whose record is given among them; 0 on a refusal */
typedef struct {
    uint32_t number;
    size_t place;
    size_t score;
    uint64_t ties;
    uint16_t numbers[32];
} st_Tied;

/* An entry of a sheet: which of the lent species records is meant, counted in whole records of 32 numbers from 0, and what st_sheet
   puts there: the number and the value that st_score replies for that record, or 12 and 0 where it is not lent whole */
typedef struct {
    size_t position;
    uint32_t number;
    size_t score;
} st_Entry;

/* value: how many species the roster line has. Its names are 1 to 15 printable bytes each, written bare (letters, digits, underscores
   that stand for blanks) or between single quotes (a quote written twice), with one space between two; leaves and inner nodes of a
   text have theirs in the same two forms */
st_Reply st_roster(const uint8_t *line, size_t line_length);

/* the record of the species tree that begins at start, which has to have every species, and the offset just after its `;` */
st_Reading st_read(const uint8_t *line, size_t line_length, const uint8_t *text, size_t text_length, size_t start);

/* the same for a gene tree, which may lack species */
st_Reading st_read_gene(const uint8_t *line, size_t line_length, const uint8_t *text, size_t text_length, size_t start);

/* the same without the clusters of weak inner nodes: not the root, with a support, the b of `:d:b` or `::b`, strictly below the
   threshold, which is in whole thousandths */
st_Reading st_read_supported(const uint8_t *line, size_t line_length, const uint8_t *text, size_t text_length, size_t start,
                             size_t threshold);

/* value: the length of the text, 558 bytes at the most; tree is a species tree's record or a gene tree's */
st_Reply st_write(const uint8_t *line, size_t line_length, st_Record tree, uint8_t *out, size_t out_length);

/* value: the weight of the cluster */
st_Reply st_weight(size_t n, const uint16_t *genes, size_t genes_length, size_t count, size_t cluster);

/* value: the score of the species tree */
st_Reply st_score(size_t n, const uint16_t *genes, size_t genes_length, size_t count, st_Record species);

/* value: 0 */
st_Reply st_mark(size_t n, const uint16_t *genes, size_t genes_length, size_t count, uint8_t *out, size_t out_length);

/* value: 0. Fills the number and the score of every entry with what st_score replies for the species record at its position, or with 12
   and 0 where records does not hold that record whole; the positions stay. A refusal of the whole call leaves the entries as they are */
st_Reply st_sheet(size_t n, const uint16_t *genes, size_t genes_length, size_t count, const uint16_t *records, size_t records_length,
                  st_Entry *entries, size_t entries_length);

/* the score and the record of the first least-scoring tree; both tables are filled */
st_Found st_search(size_t n, const uint16_t *genes, size_t genes_length, size_t count, const uint8_t *allowed, size_t allowed_length,
                   uint32_t *scores, size_t scores_length, uint16_t *splits, size_t splits_length);

/* the same, and how many binary trees over the allowed clusters reach the least score; a third table is filled, with how many trees
   on each cluster reach that cluster's least score */
st_Tied st_search_ties(size_t n, const uint16_t *genes, size_t genes_length, size_t count, const uint8_t *allowed,
                       size_t allowed_length, uint32_t *scores, size_t scores_length, uint16_t *splits, size_t splits_length,
                       uint64_t *ties, size_t ties_length);

/* the score and the record that st_search gives for the same n, gene records, count and allowed set, found by going through all binary
   trees on at most seven species, else 17; no table is lent */
st_Found st_plain(size_t n, const uint16_t *genes, size_t genes_length, size_t count, const uint8_t *allowed, size_t allowed_length);

/* Is the text, from start on, a binary tree on the roster with the weight of its cluster behind every node, as `:` and digits alone?
   value: the distance of its score above the least one over all clusters; both tables are filled as by st_search with all clusters
   allowed. 23 just after the first node to end whose count is missing, fractional or wrong, or has a second number behind it; on a
   refusal both tables are as they were */
st_Reply st_check(const uint8_t *line, size_t line_length, const uint8_t *text, size_t text_length, size_t start,
                  const uint16_t *genes, size_t genes_length, size_t count, uint32_t *scores, size_t scores_length,
                  uint16_t *splits, size_t splits_length);

/* value: the length of the species tree's text with these counts, 744 bytes at the most, which st_check always passes */
st_Reply st_write_counts(const uint8_t *line, size_t line_length, const uint16_t *genes, size_t genes_length, size_t count,
                         st_Record species, uint8_t *out, size_t out_length);

/* The same seven for gene trees without a root: the clusters of a gene record are its own and the complement of each but the whole, so
   that it does not matter where the root was drawn. A gene tree has to have every species, and each inner node two children, the root
   two or three; else 19 */
st_Reply st_weight_unrooted(size_t n, const uint16_t *genes, size_t genes_length, size_t count, size_t cluster);

st_Reply st_score_unrooted(size_t n, const uint16_t *genes, size_t genes_length, size_t count, st_Record species);

st_Reply st_mark_unrooted(size_t n, const uint16_t *genes, size_t genes_length, size_t count, uint8_t *out, size_t out_length);

st_Reply st_sheet_unrooted(size_t n, const uint16_t *genes, size_t genes_length, size_t count, const uint16_t *records,
                           size_t records_length, st_Entry *entries, size_t entries_length);

st_Found st_search_unrooted(size_t n, const uint16_t *genes, size_t genes_length, size_t count, const uint8_t *allowed,
                            size_t allowed_length, uint32_t *scores, size_t scores_length, uint16_t *splits, size_t splits_length);

st_Tied st_search_ties_unrooted(size_t n, const uint16_t *genes, size_t genes_length, size_t count, const uint8_t *allowed,
                                size_t allowed_length, uint32_t *scores, size_t scores_length, uint16_t *splits, size_t splits_length,
                                uint64_t *ties, size_t ties_length);

st_Found st_plain_unrooted(size_t n, const uint16_t *genes, size_t genes_length, size_t count, const uint8_t *allowed,
                           size_t allowed_length);

#ifdef __cplusplus
}
#endif

#endif
