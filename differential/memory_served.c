/* Calls our library for the judge, under valgrind; differential/memory compiles and runs it.
 *
 * A request on standard input is a struct Request and then the slices of the call. The reply on standard output is the answer and then
 * the same slices as the call left them; the judge looks whether those that are only read are what it sent. Each slice has memory of just
 * its length, so that valgrind sees an access before it or behind it, and an empty one is null. A slice that is written holds what the
 * judge sent, but counts as not initialised: nothing may depend on it, and what the answer says is written must be. If valgrind finds
 * anything, the program says in which call, and ends. */
#include <inttypes.h>
#include <stdio.h>
#include <stdlib.h>
#include <string.h>
#include <sys/uio.h>
#include <valgrind/memcheck.h>

#include "definition_log.h"

enum { SLICES = 5 };

struct Request {
    uint64_t function; /* an index of `functions` */
    uint64_t level; /* of a lowering; 0 for a function that has none */
    uint64_t lengths[SLICES]; /* in bytes; 0 for a slice that the function does not have */
};

/* A slice as our functions take it. */
#define WORDS(slice) (slice).iov_base, (slice).iov_len / sizeof(uint32_t)
#define BYTES(slice) (slice).iov_base, (slice).iov_len

/* ---- Our functions. */

/* The level of the request at hand. */
static uint32_t level;

static struct DlAnswer lower(const struct iovec *s)
{
    return dl_lower(WORDS(s[0]), BYTES(s[1]), level, WORDS(s[2]), WORDS(s[3]), BYTES(s[4]));
}

static struct DlAnswer live(const struct iovec *s)
{
    return dl_iter_live_defs_under(WORDS(s[0]), BYTES(s[1]), BYTES(s[2]), WORDS(s[3]));
}

static struct DlAnswer history(const struct iovec *s)
{
    return dl_history(WORDS(s[0]), BYTES(s[1]), BYTES(s[2]), WORDS(s[3]));
}

static struct DlAnswer contains_node(const struct iovec *s)
{
    return dl_contains_node(WORDS(s[0]), BYTES(s[1]), BYTES(s[2]));
}

/* ---- Lowerings with a fault, each of which must be found: a run that misses one is worth nothing. */

/* Where what they read goes. */
static volatile uint32_t seen;

/* A lowering that writes zeros, without a fault. */
static struct DlAnswer zeros(const struct iovec *s)
{
    memset(s[3].iov_base, 0, s[3].iov_len);
    memset(s[4].iov_base, 0, s[4].iov_len);
    return (struct DlAnswer){DL_ANSWERED, 0};
}

static struct DlAnswer reads_before(const struct iovec *s)
{
    seen = ((const uint32_t *)s[0].iov_base)[-1];
    return zeros(s);
}

static struct DlAnswer reads_behind(const struct iovec *s)
{
    seen = ((const uint8_t *)s[1].iov_base)[s[1].iov_len];
    return zeros(s);
}

static struct DlAnswer reads_a_start_behind(const struct iovec *s)
{
    seen = ((const uint32_t *)s[2].iov_base)[s[2].iov_len / sizeof(uint32_t)];
    return zeros(s);
}

static struct DlAnswer writes_behind(const struct iovec *s)
{
    ((uint8_t *)s[4].iov_base)[s[4].iov_len] = 0;
    return zeros(s);
}

static struct DlAnswer leaves_a_byte(const struct iovec *s)
{
    memset(s[3].iov_base, 0, s[3].iov_len);
    memset(s[4].iov_base, 0, s[4].iov_len - 1);
    return (struct DlAnswer){DL_ANSWERED, 0};
}

static struct DlAnswer returns_what_was(const struct iovec *s)
{
    uint32_t was = *(const uint32_t *)s[3].iov_base;
    zeros(s);
    return (struct DlAnswer){DL_ANSWERED, was};
}

/* It reads the text of the call before. */
static struct DlAnswer keeps_a_pointer(const struct iovec *s)
{
    static const uint8_t *kept;
    if (kept != NULL)
        seen = *kept;
    kept = s[1].iov_base;
    return zeros(s);
}

/* This is the judge's to find. */
static struct DlAnswer changes_its_input(const struct iovec *s)
{
    *(uint32_t *)s[0].iov_base += 1;
    return zeros(s);
}

/* ---- Requests. */

/* How many slices come first that are only read, and whether the one behind them is a list, which is written as far as the answer says. */
struct Function {
    const char *name;
    struct DlAnswer (*call)(const struct iovec *slices);
    int read;
    int list;
};

/* In the order of judge/src/ours/served.rs. */
static const struct Function functions[] = {
    {"dl_lower", lower, 3, 0},
    {"dl_iter_live_defs_under", live, 3, 1},
    {"dl_history", history, 3, 1},
    {"dl_contains_node", contains_node, 3, 0},
    {"reads_before", reads_before, 3, 0},
    {"reads_behind", reads_behind, 3, 0},
    {"reads_a_start_behind", reads_a_start_behind, 3, 0},
    {"writes_behind", writes_behind, 3, 0},
    {"leaves_a_byte", leaves_a_byte, 3, 0},
    {"returns_what_was", returns_what_was, 3, 0},
    {"keeps_a_pointer", keeps_a_pointer, 3, 0},
    {"changes_its_input", changes_its_input, 3, 0},
};
#define FUNCTIONS (sizeof functions / sizeof functions[0])

/* A long block is read or written in parts: valgrind looks at each byte that a call may take, and a pipe takes few at once. */
#define AT_ONCE 65536

/* Reads or writes blocks to their ends: 1, or 0 if there is no more to read or none who reads. */
static int moved(ssize_t (*move)(int, const struct iovec *, int), int file, struct iovec *blocks, int count)
{
    for (;;) {
        while (count > 0 && blocks->iov_len == 0) {
            blocks++;
            count--;
        }
        if (count == 0)
            return 1;
        struct iovec part = {blocks->iov_base, AT_ONCE};
        ssize_t left = blocks->iov_len > AT_ONCE ? move(file, &part, 1) : move(file, blocks, count);
        if (left <= 0)
            return 0;
        for (struct iovec *block = blocks; left > 0; block++) {
            size_t taken = (size_t)left < block->iov_len ? (size_t)left : block->iov_len;
            block->iov_base = (uint8_t *)block->iov_base + taken;
            block->iov_len -= taken;
            left -= (ssize_t)taken;
        }
    }
}

/* How many bytes of slice i, which is written, have been, by the answer. A list stands just behind what is read. */
static size_t written(const struct Function *function, struct DlAnswer answer, int i, size_t length)
{
    if (function->list)
        return i == function->read && answer.number == DL_ANSWERED ? answer.returned * sizeof(uint32_t) : 0;
    return answer.number == DL_ANSWERED || answer.number == DL_NO_ROOM ? length : 0;
}

/* Calls a function. What it must write is held to be initialised: valgrind counts an error where it is not. */
static struct DlAnswer called(const struct Function *function, const struct iovec *slices)
{
    for (int i = function->read; i < SLICES; i++)
        VALGRIND_MAKE_MEM_UNDEFINED(slices[i].iov_base, slices[i].iov_len);
    struct DlAnswer answer = function->call(slices);
    VALGRIND_CHECK_MEM_IS_DEFINED(&answer, sizeof answer);
    for (int i = function->read; i < SLICES; i++) {
        VALGRIND_CHECK_MEM_IS_DEFINED(slices[i].iov_base, written(function, answer, i, slices[i].iov_len));
        VALGRIND_MAKE_MEM_DEFINED(slices[i].iov_base, slices[i].iov_len);
    }
    return answer;
}

/* Answers a request: 1, or 0 if the request is none or valgrind has found something. */
static int served(const struct Request *request, uint64_t number)
{
    struct iovec slices[SLICES], in[SLICES], out[SLICES + 1];

    if (request->function >= FUNCTIONS) {
        fprintf(stderr, "call %" PRIu64 ": there is no function %" PRIu64 "\n", number, request->function);
        return 0;
    }
    for (int i = 0; i < SLICES; i++) {
        size_t length = request->lengths[i];
        slices[i] = (struct iovec){length == 0 ? NULL : malloc(length), length};
        if (length != 0 && slices[i].iov_base == NULL) {
            fprintf(stderr, "call %" PRIu64 ": there is no memory for %zu bytes\n", number, length);
            return 0;
        }
    }
    memcpy(in, slices, sizeof slices);
    if (!moved(readv, 0, in, SLICES)) {
        fprintf(stderr, "call %" PRIu64 ": the request is cut short\n", number);
        return 0;
    }

    const struct Function *function = &functions[request->function];
    level = (uint32_t)request->level;
    struct DlAnswer answer = called(function, slices);
    if (VALGRIND_COUNT_ERRORS != 0) {
        fprintf(stderr, "call %" PRIu64 ", %s", number, function->name);
        for (int i = 0; i < SLICES; i++)
            fprintf(stderr, "%s %zu", i == 0 ? " with slices of" : ",", slices[i].iov_len);
        fprintf(stderr, " bytes: valgrind has found the error above\n");
        return 0;
    }

    out[0] = (struct iovec){&answer, sizeof answer};
    memcpy(out + 1, slices, sizeof slices);
    int sent = moved(writev, 1, out, SLICES + 1);
    for (int i = 0; i < SLICES; i++)
        free(slices[i].iov_base);
    return sent;
}

int main(void)
{
    struct Request request;

    if (!RUNNING_ON_VALGRIND) {
        fprintf(stderr, "this is to run under valgrind\n");
        return 2;
    }
    for (uint64_t number = 1;; number++) {
        struct iovec head = {&request, sizeof request};
        if (!moved(readv, 0, &head, 1))
            return 0;
        if (!served(&request, number))
            return 1;
    }
}
