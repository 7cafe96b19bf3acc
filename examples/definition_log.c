/* Lowers a small description of two files by include/definition_log.h, prints its log, asks the three queries of it, and shows refusals,
 * levels and box numbers:
 *   (cd crates/definition_log_c && rt lib)
 *   mkdir -p target && gcc -Iinclude examples/definition_log.c crates/definition_log_c/out/libdefinition_log_c.a -o target/definition_log
 *   target/definition_log
 *
 * definition_log.expected is what it must print. Its definitions, bindings, diagnostics, live lists and histories are the Rust's answers
 * (`differential/run ask`), its counts and refusals 01's table, counted by hand. The numbers of the log's records, which 01 leaves open,
 * are not printed. Files are counted by hand from 02's sentences: the second one starts at 27. -1 / 2 is 0 in C's signed 64 bits, and
 * 2^63 - 1 in unsigned ones, as 02 has it. A box number's bytes are its digits, read by eye. */
#include <inttypes.h>
#include <stdio.h>
#include <string.h>

#include "definition_log.h"

/* The files. The first is the example of 01; the second has a bay with a property, deleted again, and a reference to a label that is not
 * there. */
#define BASE "/dts-v1/;\n" \
             "/ { a: b { }; };\n"
#define DEPOT "/ { bay@1 { ink = <7>; }; /delete-node/ bay@1; };\n" \
              "/ { stock = <&lost>; };\n"

/* The source, which is the files run together, and where each starts in it. */
static const char source[] = BASE DEPOT;
static const uint32_t starts[] = {0, sizeof BASE - 1};

/* Its description, as a parser would write it. Texts are where the source has them, and spans are offsets in it. */
static const uint32_t description[] = {
    /* kind, next, child, text start, text length, W, span start, span end */
    0, 0, 1, 0, 0, 0, 0, 0,
    DL_IN_DIRECTIVE, 2, 0, 0, 0, DL_W_VERSION, 0, 9,        /* 1: /dts-v1/; */
    DL_IN_NODE, 8, 3, 0, 0, 4, 10, 26,                      /* 2: / */
    DL_IN_SLASH, 0, 0, 0, 0, 0, 10, 11,
    DL_IN_NODE, 0, 5, 0, 0, 0, 14, 23,                      /* 4: a: b { }; */
    DL_IN_LABEL, 7, 6, 0, 0, 0, 14, 16,
    DL_IN_NAME, 0, 0, 14, 1, 0, 14, 15,                     /* 6: a */
    DL_IN_NAME, 0, 0, 17, 1, 0, 17, 18,                     /* 7: b */
    DL_IN_NODE, 22, 9, 0, 0, 10, 27, 76,                    /* 8: / */
    DL_IN_SLASH, 0, 0, 0, 0, 0, 27, 28,
    DL_IN_NODE, 18, 11, 0, 0, 14, 31, 52,                   /* 10: bay@1 */
    DL_IN_NAME, 12, 0, 31, 3, 0, 31, 34,
    DL_IN_UNIT_ADDRESS, 0, 13, 0, 0, 0, 34, 36,
    DL_IN_NAME, 0, 0, 35, 1, 0, 35, 36,
    DL_IN_PROPERTY, 0, 15, 0, 0, 16, 39, 49,                /* 14: ink = <7>; */
    DL_IN_NAME, 0, 0, 39, 3, 0, 39, 42,
    DL_IN_CELL_LIST, 0, 17, 0, 0, 0, 45, 48,
    DL_IN_NUMBER, 0, 0, 46, 1, 0, 46, 47,
    DL_IN_DIRECTIVE, 0, 19, 0, 0, DL_W_DELETE_NODE, 53, 73, /* 18: /delete-node/ bay@1; */
    DL_IN_NAME, 20, 0, 67, 3, 0, 67, 70,
    DL_IN_UNIT_ADDRESS, 0, 21, 0, 0, 0, 70, 72,
    DL_IN_NAME, 0, 0, 71, 1, 0, 71, 72,
    DL_IN_NODE, 0, 23, 0, 0, 24, 77, 100,                   /* 22: / */
    DL_IN_SLASH, 0, 0, 0, 0, 0, 77, 78,
    DL_IN_PROPERTY, 0, 25, 0, 0, 26, 81, 97,                /* 24: stock = <&lost>; */
    DL_IN_NAME, 0, 0, 81, 5, 0, 81, 86,
    DL_IN_CELL_LIST, 0, 27, 0, 0, 0, 89, 96,
    DL_IN_REFERENCE, 0, 0, 91, 4, DL_W_BY_NAME, 90, 95      /* 27: &lost */
};
#define DESCRIPTION_LEN (sizeof description / sizeof description[0])

/* A property whose value depends on the level, its description, and that it is one file. */
static const char expression_source[] = "/ { ink = /bits/ 64 <(-1 / 2)>; };";
static const uint32_t one_file[] = {0};
static const uint32_t expression[] = {
    0, 0, 1, 0, 0, 0, 0, 0,
    DL_IN_NODE, 0, 2, 0, 0, 3, 0, 34,                /* 1: / */
    DL_IN_SLASH, 0, 0, 0, 0, 0, 0, 1,
    DL_IN_PROPERTY, 0, 4, 0, 0, 5, 4, 31,            /* 3: ink = ..; */
    DL_IN_NAME, 0, 0, 4, 3, 0, 4, 7,
    DL_IN_CELL_LIST, 0, 6, 17, 2, 0, 10, 30,         /* 5: /bits/ 64 <..> */
    DL_IN_EXPRESSION, 0, 7, 0, 0, 0, 21, 29,
    DL_IN_INFIX, 0, 8, 0, 0, DL_W_DIVIDE, 22, 28,    /* 7: -1 / 2 */
    DL_IN_PREFIX, 10, 9, 0, 0, DL_W_MINUS, 22, 24,   /* 8: -1 */
    DL_IN_NUMBER, 0, 0, 23, 1, 0, 23, 24,
    DL_IN_NUMBER, 0, 0, 27, 1, 0, 27, 28
};

/* A property with a box number in its bytestring, and its description. */
static const char box_source[] = "/ { box = [00 12 34]; };";
static const uint32_t box_description[] = {
    0, 0, 1, 0, 0, 0, 0, 0,
    DL_IN_NODE, 0, 2, 0, 0, 3, 0, 24,                /* 1: / */
    DL_IN_SLASH, 0, 0, 0, 0, 0, 0, 1,
    DL_IN_PROPERTY, 0, 4, 0, 0, 5, 4, 21,            /* 3: box = ..; */
    DL_IN_NAME, 0, 0, 4, 3, 0, 4, 7,
    DL_IN_BYTESTRING, 0, 0, 10, 10, 0, 10, 20        /* 5: [00 12 34] */
};

/* The buffers for the log. Number 7 would say that they are too small. */
static uint32_t words[32 * DL_RECORD_WORDS];
static uint8_t bytes[256];
#define WORDS (sizeof words / sizeof words[0])
#define BYTES (sizeof bytes)

/* How many answers the list of this program holds. */
#define ROOM 8

/* A text, and an array of words, as a pointer and a length. */
#define TEXT(s) (const uint8_t *)(s), strlen(s)
#define LIST(a) (a), sizeof(a) / sizeof((a)[0])

static const char *const kinds[] = {"", "node", "property", "deleted node", "deleted property", "version", "plugin"};

/* The words of a record of the log, and its texts for printf. */
static const uint32_t *record(uint32_t number)
{
    return words + (size_t)number * DL_RECORD_WORDS;
}
#define FIRST_TEXT(r) (int)(r)[DL_TEXT_LENGTH], (const char *)bytes + (r)[DL_TEXT_START]
#define SECOND_TEXT(r) (int)(r)[DL_SECOND_LENGTH], (const char *)bytes + (r)[DL_SECOND_START]

/* Prints why a query is refused. */
static void query_refused(struct DlAnswer answer)
{
    switch (answer.number) {
    case DL_BROKEN_LOG:
        printf("the log is broken%s\n", answer.returned == 0 ? " at record 0" : "");
        break;
    case DL_BAD_PATH:
        printf("this is no path\n");
        break;
    case DL_LIST_TOO_SHORT:
        printf("the list must hold %" PRIu32 "\n", answer.returned);
        break;
    }
}

/* Prints why a description is not lowered. */
static void lowering_refused(struct DlAnswer answer)
{
    switch (answer.number) {
    case DL_WRONG_SIZE:
        printf("the description is not 1 to 2,048 records of 8 words, or its text is longer than 65,536 bytes\n");
        break;
    case DL_BAD_LINK:
        printf("a link of record %" PRIu32 " does not lead upwards, leads past the end, or leads to a record linked already\n",
               answer.returned);
        break;
    case DL_BAD_TEXT:
        printf("the text of record %" PRIu32 " ends behind the text that is lent\n", answer.returned);
        break;
    case DL_UNFIT_RECORD:
        printf("record %" PRIu32 " does not fit its place, or its W or its span is none\n", answer.returned);
        break;
    case DL_BAD_NAME:
        printf("the name in record %" PRIu32 " is empty or has a slash in it\n", answer.returned);
        break;
    case DL_TOO_DEEP:
        printf("record %" PRIu32 " lies more than 64 links deep\n", answer.returned);
        break;
    case DL_NO_ROOM:
        printf("the log needs larger buffers\n");
        break;
    case DL_BAD_FILES:
        printf("the starts of the files are not 1 to 16, do not begin with 0, or do not rise\n");
        break;
    case DL_NO_LEVEL:
        printf("this is no level\n");
        break;
    }
}

/* Prints why a box number is not read or written. */
static void box_refused(uint32_t number)
{
    switch (number) {
    case DL_BAD_BOX_DIGIT:
        printf("a digit is above 9\n");
        break;
    case DL_BAD_BOX_LENGTH:
        printf("a box number has 1 to 8 bytes\n");
        break;
    case DL_BOX_TOO_LARGE:
        printf("the number has more than two digits for each byte\n");
        break;
    }
}

/* Prints what an answer says, in words. */
static void told(const char *what, struct DlAnswer answer)
{
    printf("%s: number %" PRIu32 ", ", what, answer.number);
    if (answer.number == DL_ANSWERED)
        printf("answered: %" PRIu32 "\n", answer.returned);
    query_refused(answer);
    lowering_refused(answer);
}

/* Prints where a record is in the source, and in which file. */
static void place(const uint32_t *r)
{
    printf(" at %" PRIu32 "-%" PRIu32 ", file %" PRIu32 "\n", r[DL_SPAN_START], r[DL_SPAN_END], r[DL_FILE]);
}

/* Prints a chain of diagnostics: code, text and place. */
static void diagnostics(uint32_t first)
{
    for (uint32_t n = first; n != 0; n = record(n)[DL_NEXT]) {
        const uint32_t *r = record(n);
        printf("  code %" PRIu32 " \"%.*s\"", r[DL_N], FIRST_TEXT(r));
        place(r);
    }
}

/* Prints a definition: kind, path and place. */
static void definition(const uint32_t *r)
{
    printf("  %s \"%.*s\"", kinds[r[DL_KIND]], FIRST_TEXT(r));
    place(r);
}

/* Prints the log: definitions, bindings, and diagnostics, those of the post checks last. */
static void print_log(void)
{
    printf("%" PRIu32 " records and %" PRIu32 " bytes used\ndefinitions:\n", words[DL_RECORDS_USED], words[DL_BYTES_USED]);
    for (uint32_t n = words[DL_FIRST_DEFINITION]; n != 0; n = record(n)[DL_NEXT])
        definition(record(n));
    printf("bindings:\n");
    for (uint32_t n = words[DL_FIRST_BINDING]; n != 0; n = record(n)[DL_NEXT])
        printf("  %.*s is %.*s, file %" PRIu32 "\n", FIRST_TEXT(record(n)), SECOND_TEXT(record(n)), record(n)[DL_FILE]);
    printf("diagnostics:\n");
    diagnostics(words[DL_FIRST_DIAGNOSTIC]);
    diagnostics(words[DL_FIRST_POST_DIAGNOSTIC]);
}

/* Prints the answers of a list, which are record numbers, by the definitions that they name. */
static void answers(const char *query, const char *path, struct DlAnswer answer, const uint32_t *list)
{
    printf("%s \"%s\": %" PRIu32 "\n", query, path, answer.returned);
    for (uint32_t i = 0; i < answer.returned; i++)
        definition(record(list[i]));
}

static void live(const char *base)
{
    uint32_t list[ROOM];
    struct DlAnswer answer = dl_iter_live_defs_under(words, WORDS, bytes, BYTES, TEXT(base), list, ROOM);
    if (answer.number == DL_ANSWERED)
        answers("live under", base, answer, list);
    else
        told(base, answer);
}

static void history(const char *path)
{
    uint32_t list[ROOM];
    struct DlAnswer answer = dl_history(words, WORDS, bytes, BYTES, TEXT(path), list, ROOM);
    if (answer.number == DL_ANSWERED)
        answers("history of", path, answer, list);
    else
        told(path, answer);
}

/* Asks without the bytes: the lowest record at fault is the lowest one with a text. */
static void without_bytes(void)
{
    struct DlAnswer answer = dl_contains_node(words, WORDS, NULL, 0, TEXT("/b"));
    uint32_t lowest = 1;
    while (lowest < words[DL_RECORDS_USED] && record(lowest)[DL_TEXT_LENGTH] == 0 && record(lowest)[DL_SECOND_LENGTH] == 0)
        lowest++;
    told("no bytes", answer);
    printf("  at the lowest record with a text: %s\n", answer.returned == lowest ? "yes" : "no");
}

/* Asks a log that is cut short, with a path that is none, and into a list that is too short. */
static void queries_refused(void)
{
    uint32_t list[1];
    told("one word missing", dl_contains_node(words, WORDS - 1, bytes, BYTES, TEXT("/b")));
    without_bytes();
    told("no log", dl_contains_node(NULL, 0, NULL, 0, TEXT("/b")));
    told("history of \"/bay@1/\"", dl_history(words, WORDS, bytes, BYTES, TEXT("/bay@1/"), list, 1));
    told("live under \"/\" into 1 place", dl_iter_live_defs_under(words, WORDS, bytes, BYTES, TEXT("/"), list, 1));
    told("live under \"/b\" into 1 place", dl_iter_live_defs_under(words, WORDS, bytes, BYTES, TEXT("/b"), list, 1));
}

/* Lowers the description with one word of a record changed. */
static void changed(const char *what, uint32_t number, uint32_t word, uint32_t value)
{
    uint32_t input[DESCRIPTION_LEN];
    memcpy(input, description, sizeof description);
    input[number * DL_IN_RECORD_WORDS + word] = value;
    told(what, dl_lower(input, DESCRIPTION_LEN, TEXT(source), DL_LEVEL_SIGNED, LIST(starts), words, WORDS, bytes, BYTES));
}

/* Lowers 65 nodes, each but the first in the body of the one before it. */
static void nested(void)
{
    enum { DEEP = DL_MOST_LINKS + 1 };
    uint32_t input[(DEEP + 1) * DL_IN_RECORD_WORDS] = {0};
    input[DL_IN_CHILD] = 1;
    for (uint32_t n = 1; n <= DEEP; n++) {
        input[n * DL_IN_RECORD_WORDS + DL_IN_KIND] = DL_IN_NODE;
        input[n * DL_IN_RECORD_WORDS + DL_IN_W] = n < DEEP ? n + 1 : 0;
    }
    told("65 nodes inside one another",
         dl_lower(LIST(input), NULL, 0, DL_LEVEL_SIGNED, LIST(starts), words, WORDS, bytes, BYTES));
}

/* Lowers the description with other starts of files. */
static void from_files(const char *what, const uint32_t *list, size_t list_len)
{
    told(what, dl_lower(LIST(description), TEXT(source), DL_LEVEL_SIGNED, list, list_len, words, WORDS, bytes, BYTES));
}

/* Shows lists of starts that are refused, and that 16 files are not too many. */
static void files_refused(void)
{
    static const uint32_t late[] = {1, 27};
    static const uint32_t twice[] = {0, 27, 27};
    uint32_t many[DL_MOST_FILES + 1];
    for (uint32_t n = 0; n <= DL_MOST_FILES; n++)
        many[n] = 5 * n;
    from_files("no files", NULL, 0);
    from_files("a first file that starts at 1", LIST(late));
    from_files("two files that start at 27", LIST(twice));
    from_files("17 files", LIST(many));
    printf("a node at /b: %" PRIu32 " still\n", dl_contains_node(words, WORDS, bytes, BYTES, TEXT("/b")).returned);
    from_files("16 files", many, DL_MOST_FILES);
}

/* The first value of the last definition. */
static const uint32_t *last_value(void)
{
    uint32_t last = words[DL_FIRST_DEFINITION];
    while (record(last)[DL_NEXT] != 0)
        last = record(last)[DL_NEXT];
    return record(record(last)[DL_CHILD]);
}

/* Lowers the expression at a level, and prints its value: the first cell of that value. */
static void reckoned(const char *what, uint32_t level)
{
    struct DlAnswer answer =
        dl_lower(LIST(expression), TEXT(expression_source), level, LIST(one_file), words, WORDS, bytes, BYTES);
    if (answer.number != DL_ANSWERED) {
        told(what, answer);
        return;
    }
    const uint32_t *cell = record(last_value()[DL_CHILD]);
    printf("%s: %" PRIu64 "\n", what, (uint64_t)cell[DL_M] << 32 | cell[DL_N]);
}

/* Reads a box number, and prints it. */
static void box_read(const char *what, const uint8_t *packed, size_t packed_len)
{
    struct DlBox box = dl_read_box(packed, packed_len);
    printf("%s: number %" PRIu32 ", ", what, box.number);
    if (box.number == DL_ANSWERED)
        printf("box %" PRIu64 "\n", box.value);
    box_refused(box.number);
}

/* Writes a box number into the first bytes of a buffer, and prints them. */
static void box_written(uint64_t value, size_t len)
{
    uint8_t out[DL_MOST_BOX_BYTES + 1];
    memset(out, 0xff, sizeof out);
    struct DlAnswer answer = dl_write_box(value, out, len);
    printf("%" PRIu64 " into %zu:", value, len);
    for (size_t i = 0; i < len; i++)
        printf(" %02x", out[i]);
    printf(answer.number == DL_ANSWERED ? "\n" : ", number %" PRIu32 ", ", answer.number);
    box_refused(answer.number);
}

/* Reads the box number of a log, and shows the largest one and refusals. */
static void boxes(void)
{
    static const uint8_t bad[] = {0x99, 0x9a};
    dl_lower(LIST(box_description), TEXT(box_source), DL_LEVEL_SIGNED, LIST(one_file), words, WORDS, bytes, BYTES);
    const uint32_t *value = last_value();
    box_read("[00 12 34]", bytes + value[DL_TEXT_START], value[DL_TEXT_LENGTH]);
    box_read("[99 9a]", bad, sizeof bad);
    box_read("no bytes", NULL, 0);
    box_written(1234, 4);
    box_written(9999999999999999, DL_MOST_BOX_BYTES);
    box_written(100, 1);
    box_written(0, DL_MOST_BOX_BYTES + 1);
}

int main(void)
{
    told("lowering", dl_lower(LIST(description), TEXT(source), DL_LEVEL_SIGNED, LIST(starts), words, WORDS, bytes, BYTES));
    print_log();

    live("");
    live("/");
    live("/bay@1");
    history("/b");
    history("/bay@1");
    history("/bay@1/ink");
    told("a node at /b", dl_contains_node(words, WORDS, bytes, BYTES, TEXT("/b")));
    told("a node at /bay@1", dl_contains_node(words, WORDS, bytes, BYTES, TEXT("/bay@1")));
    told("a node at /stock", dl_contains_node(words, WORDS, bytes, BYTES, TEXT("/stock")));

    queries_refused();

    /* Descriptions and files that are refused: numbers 1 to 6 and 14 leave the buffers as they were, 7 leaves zeros. */
    told("one word missing",
         dl_lower(description, DESCRIPTION_LEN - 1, TEXT(source), DL_LEVEL_SIGNED, LIST(starts), words, WORDS, bytes, BYTES));
    changed("record 4 as its own label", 4, DL_IN_CHILD, 4);
    changed("a name of 90 bytes", 15, DL_IN_TEXT_LENGTH, 90);
    changed("a string among a node's parts", 9, DL_IN_KIND, DL_IN_STRING);
    changed("a property without a name's bytes", 15, DL_IN_TEXT_LENGTH, 0);
    nested();
    files_refused();
    told("room for 4 records",
         dl_lower(LIST(description), TEXT(source), DL_LEVEL_SIGNED, LIST(starts), words, 4 * DL_RECORD_WORDS, bytes, BYTES));

    /* What an expression is reckoned with. */
    reckoned("-1 / 2 at level 1", DL_LEVEL_SIGNED);
    reckoned("-1 / 2 at level 2", DL_LEVEL_UNSIGNED);
    reckoned("-1 / 2 at level 3", DL_LEVEL_UNSIGNED + 1);

    boxes();
    return 0;
}
