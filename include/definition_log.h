/* The definition log: lowering, which makes it of a description, and the queries: what of it is live, what a path's history is, and
 * whether a node is there; and box numbers, which stand in bytestrings. Proved in Rattle; docs/01-scope.md says what each gives, and "01"
 * below is that page; request 2 of docs/02-change-requests.md changed how numbers are read.
 *
 * A slice is a pointer and a length in elements: `words_len` counts words of 32 bits, not bytes. What a caller keeps:
 *   - the length is true: that many elements can be read there, and of `out`, `bytes` of lowering, `list`, and `packed` of dl_write_box
 *     written;
 *   - `words`, `starts`, `out` and `list` are aligned as a uint32_t is;
 *   - a slice that is written overlaps no other slice of the call: `list`, and `out` and `bytes` of lowering; the others are only read,
 *     and may share memory, as a path that stands in `bytes`;
 *   - a pointer is null only with length 0.
 * Every function answers every input: a description or a log that is broken is refused, never followed. None keeps a pointer, none writes
 * anything but the slices named above, and none takes heap.
 *
 * Stack: lowering takes up to about 1.5 MB, a live list up to about 1.2 MB, a history up to about 600 KB, dl_contains_node up to about
 * 350 KB, box numbers next to nothing (measured; docs/PERFORMANCE.md says how). What lowering takes is bounded whatever it is lent: arrays
 * of fixed sizes, and calls that go down one level for each of the 64 that a description may have.
 *
 * Link with libdefinition_log_c.a (`rt lib` in crates/definition_log_c). */
#ifndef DEFINITION_LOG_H
#define DEFINITION_LOG_H

#include <stddef.h>
#include <stdint.h>

#ifdef __cplusplus
extern "C" {
#endif

/* ---- Answers. */

/* 01's number, and what is returned with it. */
struct DlAnswer {
    uint32_t number;
    uint32_t returned;
};

/* The numbers. A lowering tries 18, then 1 to 6, then 14, then 7, each over all records before the next, and a query 8 to 10; a box
 * number is read with 12, then 11, and written with 12, then 13. "First" is the lowest record. After 18, 1 to 6 and 14 both buffers of a
 * lowering are as they were, after 8 to 10 the list of a query is, and after 12 and 13 the bytes for a box number are. These are not the
 * codes of diagnostics, further down: number 14 and code 14 are two things. */
enum {
    /* The answer is there.
     * Of dl_lower: the log is written, and every word and byte of the buffers that is no part of it is 0. Returned: 0.
     * Of the queries: how many answers the list got, from its start, the rest of it being as it was; of dl_contains_node 1 or 0.
     * Of dl_read_box: the value is beside it. Of dl_write_box: every byte is written. Returned: 0. */
    DL_ANSWERED = 0,
    /* The words are not 8 times 1 to 2,048, or the text has over 65,536 bytes. Returned: 0. */
    DL_WRONG_SIZE = 1,
    /* A link does not lead above its own record, leads past the last record, or leads to one already linked: next and child of every
     * record, and W of nodes and properties. Returned: the first record with such a link. */
    DL_BAD_LINK = 2,
    /* A text does not end inside the text that is lent; an empty one has a start too. Every record has one. Returned: the first such
     * record. */
    DL_BAD_TEXT = 3,
    /* A kind is unfit for its place, has a child where it has none, W is outside its list or is no character, a span ends before its
     * start, or a word of record 0 other than its child is not 0. Returned: the first such record. 4 to 6 look only at records reached
     * from record 0. */
    DL_UNFIT_RECORD = 4,
    /* A name is empty or holds "/", or a reference by name holds "/". Returned: the first such record. */
    DL_BAD_NAME = 5,
    /* More than 64 child, item or value links lead from record 0 to a record; next links do not count. Returned: the first such record. */
    DL_TOO_DEEP = 6,
    /* The records or bytes made are more than the buffers hold, or more than 65,536 records or 2^24 bytes. Bodies that are dropped and
     * bindings that are removed again count. Returned: 0. Every word and byte of both buffers is 0. */
    DL_NO_ROOM = 7,
    /* The log breaks a rule for logs, listed below. Returned: the lowest record at fault, which is 0 also where the count of words is
     * wrong. */
    DL_BROKEN_LOG = 8,
    /* The path is not empty, not "/", and not "/" before each of its nonempty components, as "a", "/a/" and "//" are not. Returned: 0. */
    DL_BAD_PATH = 9,
    /* There are more answers than the list holds. Returned: how many, so that a list of that length is enough. */
    DL_LIST_TOO_SHORT = 10,
    /* A byte of a box number has a digit above 9. The value beside it: 0. */
    DL_BAD_BOX_DIGIT = 11,
    /* A box number has no byte, or more than 8. Returned, or the value beside it: 0. */
    DL_BAD_BOX_LENGTH = 12,
    /* A number is too large for the bytes that it is to be written into: it has more than two digits for each. Returned: 0. */
    DL_BOX_TOO_LARGE = 13,
    /* The starts of a lowering's files are none or more than 16, do not begin with 0, or one is not above the one before it. Returned:
     * 0. */
    DL_BAD_FILES = 14,
    /* The level of a lowering is neither 1 nor 2. Returned: 0. */
    DL_NO_LEVEL = 18
};

/* ---- Descriptions: what lowering reads. A description is words, 8 to a record, and a text, where the texts of the records are: a start
 * and a length there, with no end mark. Links are record numbers, and chains of them end in 0. A link leads above its own record, and no
 * record has two links to it. Record 0 has only the first top item, as its child; its other words are 0. */

/* The words of a record, by their index. */
enum {
    DL_IN_KIND = 0,
    DL_IN_NEXT = 1, /* the next record of its chain */
    DL_IN_CHILD = 2, /* the first part, cell or operand; 0 where the kind has none */
    DL_IN_TEXT_START = 3,
    DL_IN_TEXT_LENGTH = 4,
    DL_IN_W = 5, /* of a node the first item of its body, of a property its first value; of other kinds a number, 0 where none is named */
    DL_IN_SPAN_START = 6, /* where it stands in the source: lowering copies spans and asks only that none ends before its start */
    DL_IN_SPAN_END = 7,
    DL_IN_RECORD_WORDS = 8
};

/* The kinds. The first part of a kind counts; of labels, all. */
enum {
    DL_IN_NODE = 1, /* child: parts; W: first item */
    DL_IN_PROPERTY = 2, /* child: parts; W: first value */
    DL_IN_DIRECTIVE = 3, /* child: parts; W: which, below */
    DL_IN_PREPROCESSOR = 4,
    DL_IN_NAME = 5, /* text: the name */
    DL_IN_UNIT_ADDRESS = 6, /* child: a name or a macro */
    DL_IN_LABEL = 7, /* child: a name or a macro */
    /* W 0, by name: text is the name, of length 0 where it is missing; W 1, raw: text is `&{..}`. child: a macro or none */
    DL_IN_REFERENCE = 8,
    DL_IN_MACRO = 9, /* text: as it stands */
    DL_IN_SLASH = 10, /* a root node's mark */
    DL_IN_OMIT = 11, /* the mark that a node may be left out */
    DL_IN_STRING = 12, /* text: its bytes */
    DL_IN_CELL_LIST = 13, /* text: the width, a number as below, of length 0 where there is none; child: cells */
    DL_IN_BYTESTRING = 14, /* text: its hex digits, up to the first "]" */
    /* text: the number, in base 16 behind 0x, base 2 behind 0b, base 8 behind 0o and behind any other 0 in front, else base 10 */
    DL_IN_NUMBER = 15,
    DL_IN_CHARACTER = 16, /* W: the code point */
    DL_IN_EXPRESSION = 17, /* 17 to 20, child: expressions, in order */
    DL_IN_PREFIX = 18, /* W: the operator, below */
    DL_IN_PARENTHESIS = 19,
    DL_IN_INFIX = 20 /* W: the operator, below */
};

/* Which kinds fit which chain:
 *   items: 1 to 4                  node parts: 5 to 11
 *   property parts: 5, 6, 9        directive parts: 5, 6, 8, 9
 *   values: 3, 4, 8, 9, 12 to 14   cells: 3, 4, 8, 9, 15 to 17
 *   expressions: 9, 15, 16, 18 to 20 */

/* W of a directive. */
enum {
    DL_W_VERSION = 1,
    DL_W_PLUGIN = 2,
    DL_W_INCLUDE = 3,
    DL_W_DELETE_NODE = 4,
    DL_W_DELETE_PROPERTY = 5,
    DL_W_OTHER = 6
};

/* W of a reference. */
enum {
    DL_W_BY_NAME = 0,
    DL_W_RAW = 1
};

/* W of a prefix and of an infix; 0 is a missing operator. */
enum {
    DL_W_PLUS = 1, /* + */
    DL_W_MINUS = 2, /* - */
    DL_W_NOT_BITS = 3, /* ~ */
    DL_W_NOT = 4 /* ! */
};
enum {
    DL_W_ADD = 1, /* + */
    DL_W_SUBTRACT = 2, /* - */
    DL_W_MULTIPLY = 3, /* * */
    DL_W_DIVIDE = 4, /* / */
    DL_W_REMAINDER = 5, /* % */
    DL_W_AND_BITS = 6, /* & */
    DL_W_OR_BITS = 7, /* | */
    DL_W_XOR_BITS = 8, /* ^ */
    DL_W_SHIFT_LEFT = 9, /* << */
    DL_W_SHIFT_RIGHT = 10, /* >> */
    DL_W_AND = 11, /* && */
    DL_W_OR = 12, /* || */
    DL_W_LESS = 13, /* < */
    DL_W_GREATER = 14, /* > */
    DL_W_AT_MOST = 15, /* <= */
    DL_W_AT_LEAST = 16, /* >= */
    DL_W_EQUAL = 17, /* == */
    DL_W_NOT_EQUAL = 18, /* != */
    DL_W_CONDITIONAL = 19 /* ?:, which has three operands */
};

/* The limits of a description, and of the log that is made of one. No description needs larger buffers than DL_MOST_WORDS and
 * DL_MOST_BYTES. */
enum {
    DL_MOST_IN_RECORDS = 2048,
    DL_MOST_TEXT = 65536,
    DL_MOST_LINKS = 64,
    DL_MOST_FILES = 16,
    DL_MOST_RECORDS = 65536,
    DL_MOST_WORDS = 1048576, /* 16 for each record */
    DL_MOST_BYTES = 16777216
};

/* ---- The log. It is words, 16 to a record, and bytes, where the texts of the records are; a text is a start and a length there, with no
 * end mark. Links are record numbers, and chains of them end in 0. A larger buffer than the log may be lent; records from 65,536 on are
 * no part of it. */

/* The words of a record other than record 0, by their index. */
enum {
    DL_KIND = 0,
    DL_NEXT = 1, /* the next record of its chain */
    DL_TEXT_START = 2, /* the first text: a definition's path, a label, a reference's label, a string's or bytestring's bytes */
    DL_TEXT_LENGTH = 3,
    DL_SECOND_START = 4, /* the second text: a binding's path, a reference's path */
    DL_SECOND_LENGTH = 5,
    DL_CHILD = 6, /* the first label of a node, value of a property, cell of a cell list; an extension's reference */
    DL_N = 7, /* a node's omit mark, a cell list's width, a number's low word, a reference's form, a diagnostic's code */
    DL_M = 8, /* the first definition of an extension's body, a number's high word */
    DL_SPAN_START = 9,
    DL_SPAN_END = 10,
    DL_NAME_START = 11, /* the name span; of a diagnostic with code 20 the span of the earlier binding */
    DL_NAME_END = 12,
    DL_FILE = 13, /* the number of the file that the span starts in, of definitions, extensions, bindings and diagnostics */
    DL_NAME_FILE = 14, /* that of the name span, of definitions and extensions; of a diagnostic with code 20 the earlier binding's */
    DL_RECORD_WORDS = 16 /* the last is 0 */
};

/* The words of record 0: how many records and bytes are used, and the first of each chain. */
enum {
    DL_RECORDS_USED = 0,
    DL_FIRST_DEFINITION = 1,
    DL_FIRST_EXTENSION = 2,
    DL_FIRST_BINDING = 3,
    DL_FIRST_DIAGNOSTIC = 4,
    DL_BYTES_USED = 5,
    DL_FIRST_POST_DIAGNOSTIC = 6
};

/* The kinds. 1 to 6 are the definitions, whose first text is their path. */
enum {
    DL_NODE = 1,
    DL_PROPERTY = 2,
    DL_DELETED_NODE = 3,
    DL_DELETED_PROPERTY = 4,
    DL_VERSION = 5,
    DL_PLUGIN = 6,
    DL_LABEL = 7,
    DL_STRING = 8,
    DL_CELL_LIST = 9,
    DL_BYTESTRING = 10,
    DL_NUMBER = 11,
    DL_REFERENCE = 12,
    DL_EXTENSION = 13,
    DL_BINDING = 14,
    DL_DIAGNOSTIC = 15
};

/* N of a reference: what it names, the label in the first text, the path in the second. */
enum {
    DL_N_LABEL = 1,
    DL_N_LABEL_AND_PATH = 2,
    DL_N_PATH = 3
};

/* N of a diagnostic. Its text is the label of 3 and 20, the path of 4 and 29, the macro's text of 10, else empty. 27 and 28 are none. */
enum {
    DL_CODE_PREPROCESSOR = 1, /* preprocessor directives are not read */
    DL_CODE_INCLUDE = 2, /* includes are not read */
    DL_CODE_NO_LABEL = 3, /* no such label */
    DL_CODE_NO_NODE = 4, /* no such node */
    DL_CODE_SUBNODE_OUTSIDE = 5, /* a subnode outside of a node */
    DL_CODE_ROOT_INSIDE = 6, /* a root node inside of a node */
    DL_CODE_PROPERTY_OUTSIDE = 7, /* a property outside of a node */
    DL_CODE_DIRECTIVE_AS_VALUE = 8,
    DL_CODE_DIRECTIVE_AS_CELL = 9,
    DL_CODE_NO_MACRO = 10, /* a macro that is not defined */
    DL_CODE_ODD_DIGITS = 11, /* a bytestring lacks a hex digit */
    DL_CODE_NO_WIDTH = 12, /* a cell width is not 8, 16, 32 or 64 */
    DL_CODE_LARGE_CHARACTER = 13, /* a character too large for its cell */
    DL_CODE_REFERENCE_WIDTH = 14, /* a reference outside of 32-bit cells */
    DL_CODE_LARGE_EXPRESSION = 15, /* an expression outside of its cell's width */
    DL_CODE_EMPTY_NUMBER = 16,
    DL_CODE_NO_DIGIT = 17,
    DL_CODE_NUMBER_TOO_LARGE = 18,
    DL_CODE_NUMBER_TOO_SMALL = 19,
    DL_CODE_DUPLICATE_LABEL = 20,
    DL_CODE_VERSION_LATE = 21, /* a version directive behind definitions */
    DL_CODE_PLUGIN_MISPLACED = 22, /* a plugin directive that is not behind the version directive */
    DL_CODE_BEFORE_VERSION = 23, /* a definition before the version directive */
    DL_CODE_OVERFLOW = 24, /* a result outside of 64 bits */
    DL_CODE_ZERO_DIVISOR = 25,
    DL_CODE_SHIFT_AMOUNT = 26, /* a shift amount outside of 0 to 63 */
    DL_CODE_AMBIGUOUS_NODE = 29 /* a path that leaves out unit addresses and may mean more than one node */
};

/* The rules that number 8 speaks of: the count of words is 16 times 1 or more; each link leads to a record of the log, up or down, and no
 * record is reached twice; a child is 0 where the kind has none; texts end inside `bytes`; a kind fits the chain that it is in; no span
 * ends before its start; paths of definitions and bindings are as number 9 asks and not empty, but a version's or plugin directive's may
 * be. Only record 0 and what links lead to from it is looked at, and its two counts are not, nor are DL_FILE and DL_NAME_FILE. */

/* ---- Lowering. */

/* What expressions are reckoned with (request 10 of docs/02-change-requests.md). Level 1: signed 64-bit numbers, and code 24 for a result
 * outside of them. Level 2: unsigned 64-bit numbers that wrap, with comparison, division, >> and literals unsigned; 19 and 24 never arise,
 * and a cell of 32 bits or less takes a result that fits unsigned, or one whose upper bits are all ones and which fits signed. What has
 * no expression cell (DL_IN_EXPRESSION) lowers alike at both. Any other level is DL_NO_LEVEL. */
enum { DL_LEVEL_SIGNED = 1, DL_LEVEL_UNSIGNED = 2 };

/* A reference by a path, `&{/rack/bay}` or `&{label/bay}`, leads to the live node exactly there. If there is none, unit addresses may be
 * left out (request 5 of docs/02-change-requests.md): a component without "@" means each component that equals it up to the first "@", one
 * with "@" only itself, and of the paths of live nodes with as many components exactly one may be meant. That node is reopened or deleted
 * under its full path. None meant is DL_CODE_NO_NODE, more than one DL_CODE_AMBIGUOUS_NODE. References in the log stay as written, and the
 * queries below take full paths only. */

/* A rack may be built from up to 16 files run together into one source, in which its spans are places (request 3 of
 * docs/02-change-requests.md). `starts` says where each file starts there: 0 first, then each above the one before it; a rack of one file
 * has the list 0. Files are numbered from 0. DL_FILE of a definition, in bodies of extensions too, an extension, a binding or a diagnostic
 * is the number of the last start not above its span's start, and DL_NAME_FILE is that of its name span, 0 where it has none; records of
 * other kinds have 0 in both. With the list 0, 5 place 4 is in file 0, and 5 and all above it are in file 1; less the file's start it is
 * the place in that file. Ends do not count: a span over several files belongs to the one that it starts in. In the post checks' 3, 4 and
 * 29 the span is the property's name span, in 21 to 23 the definition's. Starts may lie behind every span and behind `text`. The queries
 * do not look at files. */

/* Lowers the description in `words` and `text`, of the files that begin at `starts`, at a level into `out` and `bytes`: the log of its top
 * items, then of the post checks. What the buffers held before does not matter. `out` holds as many records as it has times 16 words, and
 * DL_RECORDS_USED and DL_BYTES_USED of the log say how much was needed. Words of `out` behind its last whole record are 0 then; leave
 * them out where the log is lent to a query, which asks for 16 times 1 or more. */
struct DlAnswer dl_lower(const uint32_t *words, size_t words_len, const uint8_t *text, size_t text_len, uint32_t level,
                         const uint32_t *starts, size_t starts_len, uint32_t *out, size_t out_len, uint8_t *bytes, size_t bytes_len);

/* ---- Queries. An answer is the number of a record of the chain that starts at DL_FIRST_DEFINITION. */

/* The definitions that are live at or under `base`, latest first: those that are no deletion, have no later deleted node at or above
 * their path and, of properties, no later property or deleted property with their path. */
struct DlAnswer dl_iter_live_defs_under(const uint32_t *words, size_t words_len,
                                        const uint8_t *bytes, size_t bytes_len, const uint8_t *base, size_t base_len,
                                        uint32_t *list, size_t list_len);

/* The history of `path`, earliest first: its definitions and deletions, and each deletion of a node above it by which it went. */
struct DlAnswer dl_history(const uint32_t *words, size_t words_len, const uint8_t *bytes, size_t bytes_len,
                           const uint8_t *path, size_t path_len, uint32_t *list, size_t list_len);

/* Whether a node is live exactly at `path`: returned is 1 or 0. */
struct DlAnswer dl_contains_node(const uint32_t *words, size_t words_len, const uint8_t *bytes, size_t bytes_len,
                                 const uint8_t *path, size_t path_len);

/* ---- Box numbers (request 1 of docs/02-change-requests.md): packed decimal, two digits a byte, high digit first, in 1 to 8 bytes. These
 * are bytes as a value of kind DL_BYTESTRING has them in the log, not the text `[12 34]`: 00 12 34 is 1234. What is read and then written
 * into as many bytes gives these bytes, and what is written is read back. */

/* The most bytes of a box number. */
enum { DL_MOST_BOX_BYTES = 8 };

/* Number 0 and the box number, which is below 100 to the power of its bytes; or number 11 or 12 and value 0. */
struct DlBox {
    uint32_t number;
    uint64_t value;
};

/* Reads all of `packed`. */
struct DlBox dl_read_box(const uint8_t *packed, size_t packed_len);

/* Writes a number into all of `packed`, with leading zeros. */
struct DlAnswer dl_write_box(uint64_t value, uint8_t *packed, size_t packed_len);

#ifdef __cplusplus
}
#endif

#endif
