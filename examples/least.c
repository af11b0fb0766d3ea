/* Reads two gene trees, searches the least species tree and prints it: a use of the library from C.
   Build from the project's root, on x86-64: (cd crates/capi && rt lib) && mkdir -p target && cc -Iinclude examples/least.c crates/capi/out/libcapi.a -o target/least */
#include <stdio.h>
#include <string.h>

#include "speciestree.h"

static int refused(uint32_t number, size_t place) {
    printf("refused %u at %zu\n", (unsigned)number, place);
    return 1;
}

int main(void) {
    const char *roster = "a b c";
    const char *texts[2] = {"((a,b),c);", "((a,c),b);"};
    const size_t roster_length = strlen(roster);
    uint16_t genes[2 * 32];
    uint8_t allowed[8], text[558];
    uint32_t scores[8];
    uint16_t splits[8];

    for (size_t i = 0; i < 2; i++) {
        st_Reading read = st_read_gene((const uint8_t *)roster, roster_length, (const uint8_t *)texts[i], strlen(texts[i]), 0);
        if (read.number != 0) return refused(read.number, read.place);
        memcpy(genes + 32 * i, read.numbers, sizeof read.numbers);
    }
    memset(allowed, 1, sizeof allowed);
    st_Found found = st_search(3, genes, 64, 2, allowed, 8, scores, 8, splits, 8);
    if (found.number != 0) return refused(found.number, found.place);

    st_Record tree;
    memcpy(tree.numbers, found.numbers, sizeof tree.numbers);
    st_Reply written = st_write((const uint8_t *)roster, roster_length, tree, text, sizeof text);
    if (written.number != 0) return refused(written.number, written.place);
    printf("score %zu\n%.*s\n", found.score, (int)written.value, (const char *)text);
    return 0;
}
