/* Runs the stored cases through the C names, and the program's through the built program: cases PROGRAM <FILE, where PROGRAM is the
   command that runs it. Prints each answer; docs/src/README.md says how a case and its answer are written. */
#define _POSIX_C_SOURCE 200809L
#include <signal.h>
#include <stddef.h>
#include <stdio.h>
#include <stdlib.h>
#include <string.h>

#include "speciestree.h"

/* The layouts that callers were built with: a division by zero does not compile. */
enum {
    layout_of_record = 1 / (sizeof(st_Record) == 64),
    layout_of_reply = 1 / (offsetof(st_Reply, number) == 0 && offsetof(st_Reply, place) == 8 && offsetof(st_Reply, value) == 16),
    layout_of_reading = 1 / (offsetof(st_Reading, place) == 8 && offsetof(st_Reading, next) == 16 && offsetof(st_Reading, numbers) == 24),
    layout_of_found = 1 / (offsetof(st_Found, place) == 8 && offsetof(st_Found, score) == 16 && offsetof(st_Found, numbers) == 24),
    layout_of_tied = 1 / (offsetof(st_Tied, place) == 8 && offsetof(st_Tied, score) == 16 && offsetof(st_Tied, ties) == 24 && offsetof(st_Tied, numbers) == 32),
    layout_of_entry = 1 / (offsetof(st_Entry, position) == 0 && offsetof(st_Entry, number) == 8 && offsetof(st_Entry, score) == 16 && sizeof(st_Entry) == 24)
};

/* What lent buffers hold before a call. */
enum { byte_before = 238, score_before = 7, split_before = 9, tie_before = 5, entry_number_before = 5, entry_score_before = 6 };

typedef struct {
    uint8_t *at;
    size_t length;
} Bytes;

typedef struct {
    uint16_t *at;
    size_t length;
} Numbers;

typedef struct {
    uint32_t *at;
    size_t length;
} Scores;

typedef struct {
    uint64_t *at;
    size_t length;
} Ties;

typedef struct {
    st_Entry *at;
    size_t length;
} Entries;

static const char *program;    /* the command that runs the program */
static Bytes line;             /* the case that is run, without its line feed */
static void *held[16];         /* what the case holds, until it ends */
static size_t held_count;

static void stop(const char *why) {
    fprintf(stderr, "checks/cases.c: %s in the case %.*s\n", why, line.length < 200 ? (int)line.length : 200, (const char *)line.at);
    exit(1);
}

/* Room for so many things of a size, and one more, so that it is never nothing. */
static void *room(size_t count, size_t size) {
    void *got = malloc((count + 1) * size);
    if (got == NULL || held_count == sizeof held / sizeof held[0]) stop("no room");
    held[held_count++] = got;
    return got;
}

/* ---- the fields of a case */

/* The k-th field as it stands. */
static Bytes field(size_t k) {
    const uint8_t *end = line.at + line.length;
    Bytes found = {line.at + 1, 0};
    for (; k > 0; k--) {
        found.at = memchr(found.at, '|', (size_t)(end - found.at));
        if (found.at == NULL) stop("a field is missing");
        found.at++;
    }
    const uint8_t *bar = memchr(found.at, '|', (size_t)(end - found.at));
    found.length = (size_t)((bar == NULL ? end : bar) - found.at);
    return found;
}

/* The decimal number at *at, which is moved behind it. */
static size_t decimal(Bytes s, size_t *at) {
    size_t value = 0;
    while (*at < s.length && s.at[*at] >= '0' && s.at[*at] <= '9') value = value * 10 + (size_t)(s.at[(*at)++] - '0');
    return value;
}

static size_t number(size_t k) {
    size_t at = 0;
    return decimal(field(k), &at);
}

static unsigned digit(uint8_t b) {
    return b <= '9' ? (unsigned)(b - '0') : (unsigned)(b - 'a') + 10;
}

/* The next of the bytes of a field, or how often the one before comes again. */
static uint8_t next_byte(Bytes s, size_t *at, size_t *again) {
    *again = 0;
    if (s.at[*at] != '\\') return s.at[(*at)++];
    if (s.at[*at + 1] != '*') {
        *at += 3;
        return (uint8_t)(digit(s.at[*at - 2]) * 16 + digit(s.at[*at - 1]));
    }
    *at += 2;
    *again = decimal(s, at);
    (*at)++;
    return 0;
}

/* The bytes of the k-th field: once to count them, once to keep them. */
static Bytes bytes(size_t k) {
    Bytes s = field(k), out = {NULL, 0};
    for (int keep = 0; keep < 2; keep++) {
        out.length = 0;
        for (size_t at = 0; at < s.length;) {
            size_t again;
            uint8_t b = next_byte(s, &at, &again);
            if (keep && again > 0) memset(out.at + out.length, out.at[out.length - 1], again);
            if (keep && again == 0) out.at[out.length] = b;
            out.length += again > 0 ? again : 1;
        }
        if (!keep) out.at = room(out.length, 1);
    }
    return out;
}

/* The numbers of the k-th field: once to count them, once to keep them. */
static Numbers numbers(size_t k) {
    Bytes s = field(k);
    Numbers out = {NULL, 0};
    for (int keep = 0; keep < 2; keep++) {
        out.length = 0;
        for (size_t at = 0; at < s.length;) {
            uint8_t b = s.at[at];
            if (b == ' ' || b == '*' || b == '#') at++;
            if (b == ' ') continue;
            size_t value = decimal(s, &at), back = b == '*' ? 1 : 32;
            if (b != '*' && b != '#') {
                if (keep) out.at[out.length] = (uint16_t)value;
                out.length++;
                continue;
            }
            for (size_t i = 0; i < value * back; i++, out.length++)
                if (keep) out.at[out.length] = out.at[out.length - back];
        }
        if (!keep) out.at = room(out.length, sizeof *out.at);
    }
    return out;
}

static st_Record record(size_t k) {
    Numbers got = numbers(k);
    st_Record r;
    if (got.length != 32) stop("a record has not 32 numbers");
    memcpy(r.numbers, got.at, sizeof r.numbers);
    return r;
}

/* The k-th field as bytes, each written as a number. */
static Bytes flags(size_t k) {
    Numbers got = numbers(k);
    Bytes out = {room(got.length, 1), got.length};
    for (size_t i = 0; i < got.length; i++) out.at[i] = (uint8_t)got.at[i];
    return out;
}

/* ---- lent buffers, as many entries as the k-th field says, and their fingerprints */

static Bytes lent_bytes(size_t k) {
    Bytes out = {room(number(k), 1), number(k)};
    memset(out.at, byte_before, out.length);
    return out;
}

static Scores lent_scores(size_t k) {
    Scores out = {room(number(k), sizeof *out.at), number(k)};
    for (size_t i = 0; i < out.length; i++) out.at[i] = score_before;
    return out;
}

static Numbers lent_splits(size_t k) {
    Numbers out = {room(number(k), sizeof *out.at), number(k)};
    for (size_t i = 0; i < out.length; i++) out.at[i] = split_before;
    return out;
}

static Ties lent_ties(size_t k) {
    Ties out = {room(number(k), sizeof *out.at), number(k)};
    for (size_t i = 0; i < out.length; i++) out.at[i] = tie_before;
    return out;
}

/* An entry for each position of the k-th field. */
static Entries lent_entries(size_t k) {
    Bytes s = field(k);
    Entries out = {room(s.length, sizeof *out.at), 0};
    for (size_t at = 0; at < s.length; at++) {
        st_Entry one = {decimal(s, &at), entry_number_before, entry_score_before};
        out.at[out.length++] = one;
    }
    return out;
}

static unsigned long mixed(unsigned long h, uint64_t x) {
    return (unsigned long)((h * 31 + x % 1000003 + 1) % 1000003);
}

static void show_bytes(Bytes s) {
    unsigned long h = 7;
    for (size_t i = 0; i < s.length; i++) h = mixed(h, s.at[i]);
    printf(" %lu", h);
}

static void show_tables(Scores scores, Numbers splits) {
    unsigned long h = 7, g = 7;
    for (size_t i = 0; i < scores.length; i++) h = mixed(h, scores.at[i]);
    for (size_t i = 0; i < splits.length; i++) g = mixed(g, splits.at[i]);
    printf(" : %lu %lu", h, g);
}

static void show_ties(Ties ties) {
    unsigned long h = 7;
    for (size_t i = 0; i < ties.length; i++) h = mixed(h, ties.at[i]);
    printf(" %lu", h);
}

/* ---- answers */

static void show(uint32_t fault, size_t place, size_t value) {
    printf("%lu %zu %zu", (unsigned long)fault, place, value);
}

static void show_reply(st_Reply r) {
    show(r.number, r.place, r.value);
}

/* A record's numbers up to its last that is not 0. */
static void show_record(const uint16_t *r) {
    size_t upto = 32;
    while (upto > 0 && r[upto - 1] == 0) upto--;
    for (size_t i = 0; i < upto; i++) printf(" %u", (unsigned)r[i]);
}

static void show_reading(st_Reading r) {
    show(r.number, r.place, r.next);
    show_record(r.numbers);
    printf("\n");
}

/* ---- the calls */

static void judge(void) {
    Bytes roster = bytes(0);
    show_reply(st_roster(roster.at, roster.length));
    printf("\n");
}

static void read_species(void) {
    Bytes roster = bytes(0), text = bytes(1);
    show_reading(st_read(roster.at, roster.length, text.at, text.length, number(2)));
}

static void read_gene(void) {
    Bytes roster = bytes(0), text = bytes(1);
    show_reading(st_read_gene(roster.at, roster.length, text.at, text.length, number(2)));
}

static void read_supported(void) {
    Bytes roster = bytes(0), text = bytes(1);
    show_reading(st_read_supported(roster.at, roster.length, text.at, text.length, number(2), number(3)));
}

static void show_written(st_Reply r, Bytes out) {
    show_reply(r);
    show_bytes(out);
    if (r.value > out.length) stop("a text is longer than the room for it");
    printf(" %.*s\n", (int)r.value, (const char *)out.at);
}

static void write_tree(void) {
    Bytes roster = bytes(0), out = lent_bytes(2);
    st_Reply r = st_write(roster.at, roster.length, record(1), out.at, out.length);
    show_written(r, out);
}

/* A small letter: the gene trees are taken without a root. */
static int unrooted(void) {
    return line.at[0] >= 'a';
}

static void weigh(void) {
    Numbers genes = numbers(1);
    show_reply((unrooted() ? st_weight_unrooted : st_weight)(number(0), genes.at, genes.length, number(2), number(3)));
    printf("\n");
}

static void score(void) {
    Numbers genes = numbers(1);
    show_reply((unrooted() ? st_score_unrooted : st_score)(number(0), genes.at, genes.length, number(2), record(3)));
    printf("\n");
}

static void mark(void) {
    Numbers genes = numbers(1);
    Bytes out = lent_bytes(3);
    show_reply((unrooted() ? st_mark_unrooted : st_mark)(number(0), genes.at, genes.length, number(2), out.at, out.length));
    show_bytes(out);
    printf("\n");
}

static void fill_sheet(void) {
    Numbers genes = numbers(1), records = numbers(3);
    Entries entries = lent_entries(4);
    show_reply((unrooted() ? st_sheet_unrooted : st_sheet)(number(0), genes.at, genes.length, number(2), records.at, records.length, entries.at, entries.length));
    for (size_t i = 0; i < entries.length; i++) printf(" %zu:%lu:%zu", entries.at[i].position, (unsigned long)entries.at[i].number, entries.at[i].score);
    printf("\n");
}

static void search(void) {
    Numbers genes = numbers(1), splits = lent_splits(5);
    Bytes allowed = flags(3);
    Scores scores = lent_scores(4);
    st_Found r = (unrooted() ? st_search_unrooted : st_search)(number(0), genes.at, genes.length, number(2), allowed.at, allowed.length, scores.at, scores.length, splits.at,
                                                               splits.length);
    show(r.number, r.place, r.score);
    show_record(r.numbers);
    show_tables(scores, splits);
    printf("\n");
}

static void search_ties(void) {
    Numbers genes = numbers(1), splits = lent_splits(5);
    Bytes allowed = flags(3);
    Scores scores = lent_scores(4);
    Ties ties = lent_ties(6);
    st_Tied r = (unrooted() ? st_search_ties_unrooted : st_search_ties)(number(0), genes.at, genes.length, number(2), allowed.at, allowed.length, scores.at, scores.length,
                                                                        splits.at, splits.length, ties.at, ties.length);
    show(r.number, r.place, r.score);
    printf(" %llu", (unsigned long long)r.ties);
    show_record(r.numbers);
    show_tables(scores, splits);
    show_ties(ties);
    printf("\n");
}

static void visit(void) {
    Numbers genes = numbers(1);
    Bytes allowed = flags(3);
    st_Found r = (unrooted() ? st_plain_unrooted : st_plain)(number(0), genes.at, genes.length, number(2), allowed.at, allowed.length);
    show(r.number, r.place, r.score);
    show_record(r.numbers);
    printf("\n");
}

static void check_counts(void) {
    Bytes roster = bytes(0), text = bytes(1);
    Numbers genes = numbers(3), splits = lent_splits(6);
    Scores scores = lent_scores(5);
    show_reply(st_check(roster.at, roster.length, text.at, text.length, number(2), genes.at, genes.length, number(4), scores.at, scores.length, splits.at, splits.length));
    show_tables(scores, splits);
    printf("\n");
}

static void write_counts(void) {
    Bytes roster = bytes(0), out = lent_bytes(4);
    Numbers genes = numbers(1);
    st_Reply r = st_write_counts(roster.at, roster.length, genes.at, genes.length, number(2), record(3), out.at, out.length);
    show_written(r, out);
}

/* The program has no C name: it is run on the input, and writes its report where the answers go. */
static void run_program(void) {
    Bytes input = bytes(0);
    fflush(stdout);
    FILE *to = popen(program, "w");
    if (to == NULL) stop("the program is not run");
    fwrite(input.at, 1, input.length, to); /* the program need not read all of it */
    if (pclose(to) != 0) stop("the program ends with a fault");
}

static const struct {
    char letter;
    void (*run)(void);
} calls[] = {
    {'J', judge}, {'R', read_species}, {'G', read_gene}, {'T', read_supported}, {'W', write_tree}, {'K', weigh}, {'S', score}, {'M', mark}, {'F', search}, {'E', search_ties}, {'L', visit}, {'H', fill_sheet},
    {'k', weigh}, {'s', score}, {'m', mark}, {'f', search}, {'e', search_ties}, {'l', visit}, {'h', fill_sheet}, {'C', check_counts}, {'O', write_counts}, {'P', run_program},
};

static void run(void) {
    for (size_t i = 0; i < sizeof calls / sizeof calls[0]; i++) {
        if (line.at[0] != (uint8_t)calls[i].letter) continue;
        calls[i].run();
        while (held_count > 0) free(held[--held_count]);
        return;
    }
    stop("no call has this letter");
}

int main(int argc, char **argv) {
    char *text = NULL;
    size_t size = 0;
    if (argc != 2) return 2;
    program = argv[1];
    signal(SIGPIPE, SIG_IGN);
    for (ssize_t got; (got = getline(&text, &size, stdin)) > 0;) {
        line.at = (uint8_t *)text;
        line.length = (size_t)got - (text[got - 1] == '\n');
        if (line.length > 0) run();
    }
    free(text);
    return fflush(stdout) == 0 ? 0 : 1;
}
