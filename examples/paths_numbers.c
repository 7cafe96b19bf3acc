/* A few calls of include/paths_numbers.h, with what they give:
 *   (cd crates/paths_numbers_c && rt lib)
 *   mkdir -p target && gcc -Iinclude examples/paths_numbers.c crates/paths_numbers_c/out/libpaths_numbers_c.a -o target/paths_numbers
 *   target/paths_numbers
 *
 * paths_numbers.expected is what it must print: the Rust's answers (`differential/run worked`), with the numbers that the header gives to
 * a lack of room, a width that is none and an operator that is none. */
#include <inttypes.h>
#include <stdio.h>
#include <string.h>

#include "paths_numbers.h"

/* A text as a pointer and a length. */
#define TEXT(s) (const uint8_t *)(s), strlen(s)

static void number(const char *what, struct PnNumber n)
{
    printf("%s: code %" PRIu32 ", value %" PRIu64 "\n", what, n.code, n.value);
}

static void integer(const char *what, struct PnInteger n)
{
    printf("%s: code %" PRIu32 ", value %" PRId64 "\n", what, n.code, n.value);
}

/* The places of all slashes of a path. */
static void slashes(const char *path)
{
    struct PnPlace next = pn_next_slash(TEXT(path), 0);

    printf("slashes of %s:", path);
    while (next.found) {
        printf(" %zu", next.place);
        next = pn_next_slash(TEXT(path), next.place + 1);
    }
    printf("\n");
}

int main(void)
{
    uint8_t out[8];

    printf("/ab under /a: %" PRIu32 "\n", pn_lies_under(TEXT("/ab"), TEXT("/a")));
    printf("/a/b without /a: %zu bytes\n", pn_strip_base(TEXT("/a/b"), TEXT("/a")));
    slashes("/dock-rack@0/bay@2/drawer");
    slashes("drawer");
    struct PnWritten path = pn_build_path(TEXT("/a"), TEXT("b"), TEXT("1"), out, sizeof out, 1);
    printf("/a and b@1: number %" PRIu32 ", %.*s\n", path.number, (int)path.len, (const char *)out + 1);
    path = pn_build_path(TEXT("/a"), TEXT("b"), TEXT("1"), out, sizeof out, 3);
    printf("from 3 on: number %" PRIu32 ", %zu bytes\n", path.number, path.len);
    number("0x100 in 8 bits", pn_parse_int(TEXT("0x100"), 8));
    number("7 in 9 bits", pn_parse_int(TEXT("7"), 9));
    number("010 in 8 bits", pn_parse_int(TEXT("010"), 8));
    number("08 in 8 bits", pn_parse_int(TEXT("08"), 8));
    integer("-9", pn_parse_i64(TEXT("-9")));
    number("no width", pn_width(NULL, 0));
    number("width 0100", pn_width(TEXT("0100")));
    number("-128 as a cell of 8 bits", pn_expr_cell(-128, 8));
    integer("1 << 63", pn_infix(9, 1, 63));
    integer("1 / 0", pn_infix(4, 1, 0));
    integer("no operator", pn_prefix(5, 1));
    struct PnWritten bytes = pn_lower_bytestring(TEXT("[0a fF]"), out, sizeof out, 0);
    printf("[0a fF]: number %" PRIu32 ", %zu bytes, %02x %02x\n", bytes.number, bytes.len, out[0], out[1]);
    printf("[1 2 a]: number %" PRIu32 "\n", pn_bytestring_len(TEXT("[1 2 a]")).number);
    const char *raw = "&{l/p/q}";
    struct PnReference r = pn_reference(TEXT(raw));
    printf("%s: kind %" PRIu32 ", label %.*s, path %.*s\n", raw, r.kind, (int)r.label_len, raw + 2, (int)r.path_len, raw + 3 + r.label_len);
    return 0;
}
