/* Paths, numbers, operators, cells, bytestrings and references, proved in Rattle; docs/01-scope.md and requests 2 and 8 of
 * docs/02-change-requests.md say what each gives, and "01" and "02" below are these pages.
 *
 * A slice is a pointer and a length in bytes. What a caller keeps:
 *   - the length is true: that many bytes can be read there, and of `out` written;
 *   - `out` overlaps no other slice of the call;
 *   - a pointer is null only with length 0. Every function answers every input; none keeps a pointer, and only `out` is written. A path
 *     has no end mark, and texts are bytes.
 *
 * Codes are 01's: 11 a hex digit is missing, 12 no cell width, 13 character too large, 15 expression outside the width, 16 empty, 17 not
 * a digit, 18 too large, 19 too small, 24 result outside 64 bits, 25 zero divisor, 26 shift amount outside 0 to 63.
 *
 * Link with libpaths_numbers_c.a (`rt lib` in crates/paths_numbers_c). */
#ifndef PATHS_NUMBERS_H
#define PATHS_NUMBERS_H

#include <stddef.h>
#include <stdint.h>

#ifdef __cplusplus
extern "C" {
#endif

/* Code 0 with the value, or a code with value 0. */
struct PnNumber {
    uint32_t code;
    uint64_t value;
};

/* The same with a sign. */
struct PnInteger {
    uint32_t code;
    int64_t value;
};

/* Number 0 with how many bytes; or with len 0, number 1: no room, 11: a hex digit is missing. */
struct PnWritten {
    uint32_t number;
    size_t len;
};

/* Found 1 with the place; or found 0 with place 0. */
struct PnPlace {
    uint32_t found;
    size_t place;
};

/* What a raw reference names: kind 1 a label, 2 a label and a path, 3 a path, 0 it cannot be read. The parts stand in the raw text: the
 * label from 2 on; the path from 2 on where the kind is 3, from 3 + label_len on where it is 2. A part that the kind does not name has
 * length 0. */
struct PnReference {
    uint32_t kind;
    size_t label_len;
    size_t path_len;
};

/* ---- Paths. Truths are 1 or 0. */

/* Whether `path` lies at or under `base`. */
uint32_t pn_lies_under(const uint8_t *path, size_t path_len, const uint8_t *base, size_t base_len);

/* How long the part is that stripping `base` from `path` finds: the end of `path`. 0 where it finds none, which pn_lies_under tells from an
 * empty part. */
size_t pn_strip_base(const uint8_t *path, size_t path_len, const uint8_t *base, size_t base_len);

/* Whether a path is empty, "/", or "/" before each of its nonempty components. */
uint32_t pn_good_path(const uint8_t *path, size_t path_len);

/* The first "/" of `path` at or behind index `from`, its place counted from the start of `path` (02, request 8). There is none from the
 * end on: in "a/b/c", 1 gives 1, 2 gives 3, and 4, 5 and SIZE_MAX give none. It looks at eight bytes at a time, and at none outside `path`;
 * add 1 to the place to go on to the next. */
struct PnPlace pn_next_slash(const uint8_t *path, size_t path_len, size_t from);

/* The path of a parent and a name, whose unit address is empty where there is none: its length, SIZE_MAX where it is longer. */
size_t pn_path_len(const uint8_t *parent, size_t parent_len, const uint8_t *name, size_t name_len, const uint8_t *unit, size_t unit_len);

/* Writes that path into `out` from index `at` on, and says how long it is. Without room nothing is written. */
struct PnWritten pn_build_path(const uint8_t *parent, size_t parent_len, const uint8_t *name, size_t name_len, const uint8_t *unit,
                               size_t unit_len, uint8_t *out, size_t out_len, size_t at);

/* Whether `path` is that path. */
uint32_t pn_is_path(const uint8_t *path, size_t path_len, const uint8_t *parent, size_t parent_len, const uint8_t *name, size_t name_len,
                    const uint8_t *unit, size_t unit_len);

/* Whether `path` lies at or under that path. */
uint32_t pn_lies_under_path(const uint8_t *path, size_t path_len, const uint8_t *parent, size_t parent_len, const uint8_t *name,
                            size_t name_len, const uint8_t *unit, size_t unit_len);

/* Whether that path lies at or under `base`. */
uint32_t pn_path_lies_under(const uint8_t *parent, size_t parent_len, const uint8_t *name, size_t name_len, const uint8_t *unit,
                            size_t unit_len, const uint8_t *base, size_t base_len);

/* ---- Numbers and cells. Where `bits` is not 8, 16, 32 or 64 the code is 12.
 *
 * A number's text loses every u, U, l and L at its end. Then 0x or 0X in front means base 16, 0b or 0B base 2, 0o or 0O base 8; any other
 * text that starts with 0 is in base 8 (02, request 2), and the rest in base 10: "010" is 8, "08" gives 17, "0" is 0, "+010" is 10. */

/* A number's text, read as an unsigned number of a width. Codes 16 to 18, 12. */
struct PnNumber pn_parse_int(const uint8_t *text, size_t text_len, uint32_t bits);

/* A number's text, read as a signed 64-bit number. Codes 16 to 19. */
struct PnInteger pn_parse_i64(const uint8_t *text, size_t text_len);

/* The width, in bits, that a cell list's text names; an empty text names 32. Codes 12, 16 to 18. */
struct PnNumber pn_width(const uint8_t *text, size_t text_len);

/* An expression's result as a cell. Codes 12, 15. */
struct PnNumber pn_expr_cell(int64_t num, uint32_t bits);

/* A character, by its code point, as a cell. Codes 12, 13. */
struct PnNumber pn_char_cell(uint32_t ch, uint32_t bits);

/* ---- Operators, by 01's numbers. Code 1: there is no such operator, which 01 has fail without a code. */

/* 1 to 4: + - ~ !. Codes 1, 24. */
struct PnInteger pn_prefix(uint32_t op, int64_t a);

/* 1 to 18: + - * / % & | ^ << >> && || < > <= >= == !=. Codes 1, 24 to 26. */
struct PnInteger pn_infix(uint32_t op, int64_t a, int64_t b);

/* 19, ?: `b` where `a` is not 0, else `c`. */
int64_t pn_conditional(int64_t a, int64_t b, int64_t c);

/* ---- Bytestrings and references. */

/* How many bytes a bytestring's text stands for. Numbers 0, 11. */
struct PnWritten pn_bytestring_len(const uint8_t *text, size_t text_len);

/* Writes those bytes into `out` from index `at` on. Where a digit is missing or there is no room nothing is written. Numbers 0, 1, 11. */
struct PnWritten pn_lower_bytestring(const uint8_t *text, size_t text_len, uint8_t *out, size_t out_len, size_t at);

/* What a raw reference, `&{..}`, names. */
struct PnReference pn_reference(const uint8_t *raw, size_t raw_len);

#ifdef __cplusplus
}
#endif

#endif
