/* How much stack each call of our library takes; differential/stack compiles and runs it.
 *
 * A call runs in a thread whose stack was painted before, and what is not paint afterwards was touched; what a thread touches that does
 * nothing is taken off, so that 0 is no more than that. Lowering is tried on deeply nested nodes, and the queries on the log that it made;
 * box numbers have no log. */
#include <pthread.h>
#include <stdio.h>
#include <stdlib.h>
#include <string.h>

#include "definition_log.h"

#define STACK (8u << 20)
#define PAINT 0xa5
#define MOST_RECORDS 65536
#define MOST_BYTES (1u << 24)

/* Nodes in nodes, each with a slash or a name: the name of the last lies 63 links from record 0. */
enum { NODES = 62, RECORDS = 1 + 2 * NODES };

static uint32_t words[RECORDS * DL_IN_RECORD_WORDS];
static const uint8_t text[] = "n";
/* The files' starts, as many as there may be. */
static const uint32_t starts[] = {0, 1, 2, 3, 4, 5, 6, 7, 8, 9, 10, 11, 12, 13, 14, 15};
static uint32_t *out;
static uint8_t *bytes;
static size_t records;
static uint32_t list[MOST_RECORDS];

static void *nothing(void *unused)
{
    return unused;
}

static void *lower(void *unused)
{
    struct DlAnswer answer = dl_lower(words, RECORDS * DL_IN_RECORD_WORDS, text, 1, DL_LEVEL_SIGNED, starts, sizeof starts / sizeof *starts,
        out, records * 16, bytes, MOST_BYTES);
    if (answer.number != DL_ANSWERED)
        abort();
    return unused;
}

static void *live(void *unused)
{
    if (dl_iter_live_defs_under(out, records * 16, bytes, MOST_BYTES, NULL, 0, list, MOST_RECORDS).number != DL_ANSWERED)
        abort();
    return unused;
}

static void *history(void *unused)
{
    if (dl_history(out, records * 16, bytes, MOST_BYTES, (const uint8_t *)"/n", 2, list, MOST_RECORDS).number != DL_ANSWERED)
        abort();
    return unused;
}

static void *contains_node(void *unused)
{
    if (dl_contains_node(out, records * 16, bytes, MOST_BYTES, (const uint8_t *)"/n", 2).number != DL_ANSWERED)
        abort();
    return unused;
}

/* The largest box number. */
static uint8_t largest[] = {0x99, 0x99, 0x99, 0x99, 0x99, 0x99, 0x99, 0x99};

static void *read_box(void *unused)
{
    if (dl_read_box(largest, sizeof largest).number != DL_ANSWERED)
        abort();
    return unused;
}

static void *write_box(void *unused)
{
    if (dl_write_box(9999999999999999, largest, sizeof largest).number != DL_ANSWERED)
        abort();
    return unused;
}

/* The bytes of a painted stack that a thread touched. */
static size_t touched(void *(*run)(void *))
{
    uint8_t *stack = aligned_alloc(4096, STACK);
    pthread_attr_t attributes;
    pthread_t thread;
    size_t left = 0;

    if (stack == NULL)
        abort();
    memset(stack, PAINT, STACK);
    if (pthread_attr_init(&attributes) || pthread_attr_setstack(&attributes, stack, STACK)
        || pthread_create(&thread, &attributes, run, NULL)
        || pthread_join(thread, NULL))
        abort();
    while (left < STACK && stack[left] == PAINT)
        left++;
    pthread_attr_destroy(&attributes);
    free(stack);
    return STACK - left;
}

/* A root with nodes in nodes: record 2k - 1 is a node whose child is its name or slash, record 2k, and whose W is the node in it. */
static void describe(void)
{
    words[DL_IN_CHILD] = 1;
    for (uint32_t k = 1; k <= NODES; k++) {
        uint32_t *node = words + (2 * k - 1) * DL_IN_RECORD_WORDS, *name = node + DL_IN_RECORD_WORDS;
        node[DL_IN_KIND] = DL_IN_NODE;
        node[DL_IN_CHILD] = 2 * k;
        node[DL_IN_W] = k < NODES ? 2 * k + 1 : 0;
        name[DL_IN_KIND] = k == 1 ? DL_IN_SLASH : DL_IN_NAME;
        name[DL_IN_TEXT_LENGTH] = k == 1 ? 0 : 1;
    }
}

struct Call {
    const char *name;
    void *(*run)(void *);
};

int main(void)
{
    static const struct Call calls[] = {
        {"dl_lower", lower}, {"dl_iter_live_defs_under", live}, {"dl_history", history}, {"dl_contains_node", contains_node}};
    static const struct Call boxes[] = {{"dl_read_box", read_box}, {"dl_write_box", write_box}};
    static const size_t sizes[] = {256, 8192, MOST_RECORDS};

    out = calloc(MOST_RECORDS * 16, sizeof *out);
    bytes = malloc(MOST_BYTES);
    if (out == NULL || bytes == NULL)
        abort();
    describe();
    printf("| call | records of the log | bytes of stack |\n|---|---:|---:|\n");
    size_t start = touched(nothing);
    for (size_t s = 0; s < sizeof sizes / sizeof sizes[0]; s++) {
        records = sizes[s];
        for (size_t i = 0; i < sizeof calls / sizeof calls[0]; i++)
            printf("| `%s` | %zu | %zu |\n", calls[i].name, records, touched(calls[i].run) - start);
    }
    for (size_t i = 0; i < sizeof boxes / sizeof boxes[0]; i++)
        printf("| `%s` | none | %zu |\n", boxes[i].name, touched(boxes[i].run) - start);
    return 0;
}
