/* Measures the stack that writing takes on trees of each depth, with counts and without, and checking what was written: from the project's root, on x86-64,
   (cd crates/capi && rt lib) && mkdir -p target && cc -O2 -Iinclude docs/src/stack.c crates/capi/out/libcapi.a -Wl,-z,now -pthread -o target/stack && target/stack
   Each call is made by a thread whose stack was filled with one byte; what is no longer that byte was used.
   `-z now` keeps the loader's own work off that stack. */
#include <pthread.h>
#include <stdio.h>
#include <string.h>

#include "speciestree.h"

enum { most = 16, room = 1 << 18, filler = 0xA5 };

static uint8_t stack[room] __attribute__((aligned(4096)));
static uint8_t text[744];
static char roster[2 * most], newick[5 * most];
static uint32_t scores[1 << most];
static uint16_t splits[1 << most];
static size_t used;
static st_Record tree;
static st_Reply reply;

/* counts the bytes from the frame of a call down to the lowest that changed */
static size_t down_from(const uint8_t *here) {
    const uint8_t *low = stack;
    while (*low == filler) {
        low++;
    }
    return (size_t)(here - low);
}

static void *writes(void *unused) {
    const uint8_t *here = __builtin_frame_address(0);
    reply = st_write((const uint8_t *)roster, strlen(roster), tree, text, sizeof text);
    used = down_from(here);
    return unused;
}

/* the tree itself is the one gene tree, so that every count is 0 */
static void *writes_counts(void *unused) {
    const uint8_t *here = __builtin_frame_address(0);
    reply = st_write_counts((const uint8_t *)roster, strlen(roster), tree.numbers, 32, 1, tree, text, sizeof text);
    used = down_from(here);
    return unused;
}

/* checks what was written with counts */
static void *checks(void *unused) {
    const uint8_t *here = __builtin_frame_address(0);
    reply = st_check((const uint8_t *)roster, strlen(roster), text, reply.value, 0, tree.numbers, 32, 1, scores, 1 << most, splits, 1 << most);
    used = down_from(here);
    return unused;
}

/* the tree (..((a,b),c)..) on n species: n calls of the writer's recursion stand within each other at its first leaf */
static int deepest(int n) {
    char *name = roster, *at = newick;
    memset(at, '(', (size_t)n - 1);
    at += n - 1;
    for (int i = 0; i < n; i++) {
        name += sprintf(name, i == 0 ? "%c" : " %c", 'a' + i);
        at += sprintf(at, i == 0 ? "%c" : ",%c)", 'a' + i);
    }
    strcpy(at, ";");
    st_Reading read = st_read((const uint8_t *)roster, strlen(roster), (const uint8_t *)newick, strlen(newick), 0);
    memcpy(tree.numbers, read.numbers, sizeof tree.numbers);
    return read.number == 0;
}

/* makes the call on a stack of its own */
static int measured(void *(*call)(void *)) {
    pthread_t thread;
    pthread_attr_t own;
    memset(stack, filler, sizeof stack);
    return pthread_attr_init(&own) == 0 && pthread_attr_setstack(&own, stack, sizeof stack) == 0
        && pthread_create(&thread, &own, call, NULL) == 0 && pthread_join(thread, NULL) == 0 && reply.number == 0;
}

int main(void) {
    for (int n = 1; n <= most; n++) {
        if (!deepest(n) || !measured(writes)) {
            return 1;
        }
        if (reply.value != strlen(newick) || memcmp(text, newick, reply.value) != 0) {
            return 2;
        }
        size_t plain = used;
        if (!measured(writes_counts)) {
            return 3;
        }
        size_t counted = used;
        if (!measured(checks) || reply.value != 0) {
            return 4;
        }
        printf("depth %2d: st_write %zu, st_write_counts %zu, st_check %zu bytes\n", n, plain, counted, used);
    }
    return 0;
}
