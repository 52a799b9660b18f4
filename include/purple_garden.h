/* purple_garden.h: the reader of Purple Garden scripts for C.
 *
 * Link libc_api.a, which tools/build-library writes (x86-64 Linux). The functions keep nothing
 * between calls, allocate nothing, call nothing of yours, and may be called from several threads at
 * once, each with arrays of its own.
 *
 * What a caller must keep, and no function can test:
 * - A pointer with a length beside it is not null, is aligned for its type, and points to at least
 *   so many elements; with length 0 any aligned pointer that is not null will do. `numbers`,
 *   `counts` and the arrays for an answer have the lengths that are written here.
 * - What a function writes to overlaps nothing else that is passed to it, and nobody else uses it
 *   during the call.
 * - There is stack enough. A reading takes up to 120 KB (the deepest nests measured took 68), a
 *   lookup 16 KB on arrays of any depth, and a comparison of trees that readings returned 64 KB. A
 *   comparison of arrays that no reading made goes as deep as they do: nests in the last member of
 *   the last list take no more, any other 400 bytes a level, record types in one another 180. With
 *   8 MB it compares 21,000 such levels; arrays of 65,536 bytes hold up to 65,535. Bound the depth,
 *   or read the script anew.
 *
 * What is not left to the caller: on every input that keeps this, each function answers what its
 * comment says. That is proved (crates/c_api).
 *
 * Numbers that functions return: 0, it went well;
 *   1, the script has over 65,536 bytes; 2, an array is shorter than its least length;
 *   3, the node, type or position asked about lies outside; 4, something visited is malformed;
 *   41, a line's buffer is too short; 42, the numbers are no error of a script;
 *   43, the tables are not what cutting this script leaves; 44, a sheet's buffer is too short;
 *   47, over 16 lines of a practice sheet; 48, its buffer is too short;
 *   with 1 to 4 and 41 to 48 nothing that is lent changes;
 *   10 to 23, the script's own error, which ends the reading; 31 to 34 are only gathered, by
 *   collecting mode. */

#ifndef PURPLE_GARDEN_H
#define PURPLE_GARDEN_H

#include <stdbool.h>
#include <stddef.h>
#include <stdint.h>

#ifdef __cplusplus
extern "C" {
#endif

/* The longest script that is read, in bytes. */
#define PURPLE_GARDEN_MAX_BYTES 65536

/* The least lengths of the five arrays, in cells for each byte of the script. They always suffice.
 * docs/LAYOUT.md says what the cells hold. */
#define PURPLE_GARDEN_NODE_CELLS 16
#define PURPLE_GARDEN_TYPE_CELLS 8
#define PURPLE_GARDEN_LIST_CELLS 8
#define PURPLE_GARDEN_ROOT_CELLS 1
#define PURPLE_GARDEN_DIAGNOSTIC_CELLS 5

/* Places in `numbers`, the twelve cells that a reading fills: its number; the five numbers of the
 * error that ended it (0 where none did); and six counts (0 where there is no tree). The counts
 * alone begin at `numbers + PURPLE_GARDEN_COUNTS`. */
enum {
    PURPLE_GARDEN_NUMBER = 0,
    PURPLE_GARDEN_ERROR_NUMBER = 1,
    PURPLE_GARDEN_ERROR_START = 2,
    PURPLE_GARDEN_ERROR_LENGTH = 3,
    PURPLE_GARDEN_ERROR_WANTED = 4, /* the wanted kind of token, for 11 */
    PURPLE_GARDEN_ERROR_SEEN = 5,   /* the kind of the token that the error names */
    PURPLE_GARDEN_COUNTS = 6,
    PURPLE_GARDEN_NODES = 6,
    PURPLE_GARDEN_TYPES = 7,
    PURPLE_GARDEN_LIST_CELLS_USED = 8,
    PURPLE_GARDEN_ROOTS = 9,
    PURPLE_GARDEN_VALUES = 10,
    PURPLE_GARDEN_DIAGNOSTICS = 11,
    PURPLE_GARDEN_NUMBERS = 12 /* how many cells there are */
};

/* An error is five numbers, in this order: its number; where its span starts; how long the span is;
 * the wanted kind of token (11 only, else 0); the seen kind: of the token that the error names, for
 * 33 the byte itself, for 31, 32 and 34 it is 0. So they stand in numbers[1] to numbers[5], and in
 * each five cells of `diagnostics`. A string's span starts behind its quote, and a Doc's at its
 * `#`, with the length of its words. The script's end has a span of length 3, which lies past the
 * script. */

/* The kinds of token, in `wanted` and `seen` and wherever a tree holds a token. */
enum {
    PURPLE_GARDEN_KIND_EOF = 1,
    PURPLE_GARDEN_KIND_BRACE_LEFT,    /* ( */
    PURPLE_GARDEN_KIND_BRACE_RIGHT,   /* ) */
    PURPLE_GARDEN_KIND_PLUS,
    PURPLE_GARDEN_KIND_MINUS,
    PURPLE_GARDEN_KIND_ASTERIKS,
    PURPLE_GARDEN_KIND_SLASH,
    PURPLE_GARDEN_KIND_PERCENT,
    PURPLE_GARDEN_KIND_EQUAL,
    PURPLE_GARDEN_KIND_DOUBLE_EQUAL,  /* 10 */
    PURPLE_GARDEN_KIND_LESS_THAN,
    PURPLE_GARDEN_KIND_GREATER_THAN,
    PURPLE_GARDEN_KIND_EXCLAIM,
    PURPLE_GARDEN_KIND_NOT_EQUAL,
    PURPLE_GARDEN_KIND_QUESTION,
    PURPLE_GARDEN_KIND_COLON,
    PURPLE_GARDEN_KIND_DOT,
    PURPLE_GARDEN_KIND_BRAKET_LEFT,   /* [ */
    PURPLE_GARDEN_KIND_BRAKET_RIGHT,  /* ] */
    PURPLE_GARDEN_KIND_CURLY_LEFT,    /* 20 */
    PURPLE_GARDEN_KIND_CURLY_RIGHT,
    PURPLE_GARDEN_KIND_S,             /* a string */
    PURPLE_GARDEN_KIND_D,             /* a number with a dot */
    PURPLE_GARDEN_KIND_I,             /* a whole number */
    PURPLE_GARDEN_KIND_IDENT,
    PURPLE_GARDEN_KIND_DOC,           /* 26 */
    PURPLE_GARDEN_KIND_IMPORT,
    PURPLE_GARDEN_KIND_EXTERN,
    PURPLE_GARDEN_KIND_LET,
    PURPLE_GARDEN_KIND_FN,            /* 30 */
    PURPLE_GARDEN_KIND_MATCH,
    PURPLE_GARDEN_KIND_AS,
    PURPLE_GARDEN_KIND_TRUE,
    PURPLE_GARDEN_KIND_FALSE,
    PURPLE_GARDEN_KIND_STR,
    PURPLE_GARDEN_KIND_INT,
    PURPLE_GARDEN_KIND_DOUBLE,
    PURPLE_GARDEN_KIND_BOOL,
    PURPLE_GARDEN_KIND_VOID,
    PURPLE_GARDEN_KIND_OPTION,        /* 40 */
    PURPLE_GARDEN_KIND_ARRAY,
    PURPLE_GARDEN_KIND_FOREIGN,
    PURPLE_GARDEN_KIND_RECORD         /* 43 */
};

/* ---- cutting */

/* The cells of a record of tokens and of one of lexer errors. The least lengths of the two tables
 * are 4 cells for each byte of the script and 4 more, and 6 cells for each byte. They always
 * suffice. */
#define PURPLE_GARDEN_TOKEN_CELLS 4
#define PURPLE_GARDEN_ERROR_CELLS 6

/* Cuts a script into its tokens and its lexer errors (31 to 34). A record of `tokens` is the kind,
 * the start, the length of the spelling and where the spelling begins: behind a string's quote,
 * behind a doc's `#!` and one blank, else at the start, also for a kind with a fixed spelling. The
 * last token is Eof. A record of `errors` is the five numbers of the error and how many tokens were
 * cut before it. `counts` gets how many records each table has; behind them lie zeros.
 *   1, 2: nothing changed, `counts` neither. */
uint32_t purple_garden_cut(const uint8_t *script, size_t script_len,
                           uint32_t *tokens, size_t tokens_len,
                           uint32_t *errors, size_t errors_len, uint32_t counts[2]);

/* Whether both tables are exactly what purple_garden_cut leaves in them for this script, the zeros
 * behind included; false too where it would be refused. Writes nothing. */
bool purple_garden_is_cut(const uint8_t *script, size_t script_len,
                          const uint32_t *tokens, size_t tokens_len,
                          const uint32_t *errors, size_t errors_len);

/* ---- reading */

/* Cutting and strict reading, one after the other: the tables of the script, and its tree or the
 * first error. Lengths count elements. Both tables, of the least lengths above, and the five arrays
 * are lent to be written. Returns the number, which `numbers[0]` has too. 1 is tested first, then
 * 2, for all seven.
 *   0: the arrays hold the tree, and zeros behind it. 10 to 23: every cell of the arrays is zero.
 *   With both, the tables are as purple_garden_cut leaves them, with zeros behind.
 *   1, 2: nothing changed, `numbers` neither. */
uint32_t purple_garden_parse(const uint8_t *script, size_t script_len,
                             uint32_t *tokens, size_t tokens_len,
                             uint32_t *errors, size_t errors_len,
                             uint32_t *nodes, size_t nodes_len,
                             uint32_t *types, size_t types_len,
                             uint32_t *lists, size_t lists_len,
                             uint32_t *roots, size_t roots_len,
                             uint32_t *diagnostics, size_t diagnostics_len,
                             uint32_t numbers[12]);

/* Cutting and collecting reading: the tables, the tree of what could be read, and all errors of the
 * script (11 to 23, 31 to 34) in `diagnostics`, five cells each, as many as
 * `numbers[PURPLE_GARDEN_DIAGNOSTICS]`. Returns 0 for a tree, whatever was gathered; 10, with every
 * cell of the arrays zero; 1 or 2 as above. */
uint32_t purple_garden_parse_collect(const uint8_t *script, size_t script_len,
                                     uint32_t *tokens, size_t tokens_len,
                                     uint32_t *errors, size_t errors_len,
                                     uint32_t *nodes, size_t nodes_len,
                                     uint32_t *types, size_t types_len,
                                     uint32_t *lists, size_t lists_len,
                                     uint32_t *roots, size_t roots_len,
                                     uint32_t *diagnostics, size_t diagnostics_len,
                                     uint32_t numbers[12]);

/* Strict reading from tables that are there already, as purple_garden_cut or a call above left them
 * for this script. They are only read. The zeros behind their records belong to them: lend them
 * whole. Answer and arrays are those of purple_garden_parse. 1 is tested first, then 2, for all
 * seven, then 43.
 *   43: a table is not exactly what cutting this script leaves, zeros behind included.
 *   1, 2, 43: nothing changed, `numbers` neither. */
uint32_t purple_garden_read(const uint8_t *script, size_t script_len,
                            const uint32_t *tokens, size_t tokens_len,
                            const uint32_t *errors, size_t errors_len,
                            uint32_t *nodes, size_t nodes_len,
                            uint32_t *types, size_t types_len,
                            uint32_t *lists, size_t lists_len,
                            uint32_t *roots, size_t roots_len,
                            uint32_t *diagnostics, size_t diagnostics_len,
                            uint32_t numbers[12]);

/* Collecting reading from such tables: answer and arrays are those of purple_garden_parse_collect;
 * 1, 2 and 43 as above. */
uint32_t purple_garden_read_collect(const uint8_t *script, size_t script_len,
                                    const uint32_t *tokens, size_t tokens_len,
                                    const uint32_t *errors, size_t errors_len,
                                    uint32_t *nodes, size_t nodes_len,
                                    uint32_t *types, size_t types_len,
                                    uint32_t *lists, size_t lists_len,
                                    uint32_t *roots, size_t roots_len,
                                    uint32_t *diagnostics, size_t diagnostics_len,
                                    uint32_t numbers[12]);

/* ---- lookups and comparison */

/* The lookups and the comparison take the script, the arrays that a reading left and its six
 * counts. They take arrays from anywhere: what is malformed is refused with 4. They write their
 * answer only where they return 0. */

/* Where node `node` starts: `start` gets 1 and the byte offset, or 0 and 0 for a node that has no
 * start: an empty array, and what begins with one and has no sign of its own, as `[].b` and `[[]
 * 1]`. */
uint32_t purple_garden_node_start(const uint8_t *script, size_t script_len,
                                  const uint32_t *nodes, size_t nodes_len,
                                  const uint32_t *types, size_t types_len,
                                  const uint32_t *lists, size_t lists_len,
                                  const uint32_t *roots, size_t roots_len,
                                  const uint32_t counts[6], uint32_t node, uint64_t start[2]);

/* The token of type `type`: `token` gets its kind, start and length. The length of a kind with a
 * fixed spelling is that spelling's. */
uint32_t purple_garden_type_token(const uint8_t *script, size_t script_len,
                                  const uint32_t *nodes, size_t nodes_len,
                                  const uint32_t *types, size_t types_len,
                                  const uint32_t *lists, size_t lists_len,
                                  const uint32_t *roots, size_t roots_len,
                                  const uint32_t counts[6], uint32_t type, uint64_t token[3]);

/* The span of a token, given as its kind, start and length: `span` gets start and length. A
 * string's span starts behind its quote. */
uint32_t purple_garden_token_span(const uint8_t *script, size_t script_len,
                                  uint32_t kind, size_t start, size_t length, uint64_t span[2]);

/* The line and column of the byte at offset `at`, both counted from 1: `place` gets both. `at` may
 * be the script's length. A column is 1 plus the number of bytes since the last line feed that are
 * not UTF-8 continuation bytes, that is, not 128 to 191: a letter with an accent counts once. In
 * `"Jos\u00e9" x` the x is the byte at offset 8, in column 8. */
uint32_t purple_garden_line_column(const uint8_t *script, size_t script_len, uint32_t at,
                                   uint64_t place[2]);

/* The lines and columns of `positions`, byte offsets that never fall: those of position i go into
 * cells 2i and 2i + 1 of `places`, which keeps what it held behind them. Each pair is what
 * purple_garden_line_column gives; the script is gone through once. Equal neighbours are allowed,
 * and no position at all.
 *   1; 50: `places` has fewer than two cells for each position; 49: a position is below the one
 *   before it; 3: a position lies past the script's end. They are tested in this order, and with
 *   each of them nothing changes. */
uint32_t purple_garden_line_columns(const uint8_t *script, size_t script_len,
                                    const uint32_t *positions, size_t positions_len,
                                    uint32_t *places, size_t places_len);

/* Two trees have the same shape: `same` gets 1 for yes, 0 for no. Trees from anywhere that share
 * nodes can take very long (docs/DECISIONS.md, 26). */
uint32_t purple_garden_same_shape(const uint8_t *script, size_t script_len,
                                  const uint32_t *nodes, size_t nodes_len,
                                  const uint32_t *types, size_t types_len,
                                  const uint32_t *lists, size_t lists_len,
                                  const uint32_t *roots, size_t roots_len,
                                  const uint32_t counts[6],
                                  const uint8_t *script2, size_t script2_len,
                                  const uint32_t *nodes2, size_t nodes2_len,
                                  const uint32_t *types2, size_t types2_len,
                                  const uint32_t *lists2, size_t lists2_len,
                                  const uint32_t *roots2, size_t roots2_len,
                                  const uint32_t counts2[6], uint64_t same[1]);

/* Practice sheets. */

/* The most lines of a sheet, and a buffer that is always long enough: 118 bytes a line. */
#define PURPLE_GARDEN_PRACTICE_LINES 16
#define PURPLE_GARDEN_PRACTICE_BYTES 1888

/* The practice sheet of a seed: `out` gets `lines` lines of ASCII, each with its line feed, and
 * keeps what lies behind them; `length` gets the sheet's length in bytes. There is no zero byte at
 * the end. 47, over 16 lines, tested first; 48, a buffer that is too short for the sheet: nothing
 * changed, `length` neither. Strict reading accepts every sheet, with one root for each line. */
uint32_t purple_garden_practice(uint32_t seed, uint32_t lines, uint8_t *out, size_t out_len,
                                uint64_t length[1]);

/* ---- errors in words */

/* The least length of the buffer for a line of words, in bytes. */
#define PURPLE_GARDEN_LINE_BYTES 160

/* The words of an error, given as its five numbers in the order of `diagnostics`; docs/WORDS.md has
 * the table. `line` gets them, with no zero and no line feed, and keeps what it held behind them;
 * `length` gets their bytes. The span is not looked at. Every error of a reading has words.
 *   41: the buffer has fewer than 160 bytes. 42: the numbers are no error of a script. With both
 *   nothing changes. */
uint32_t purple_garden_describe(const uint32_t error[5], uint8_t *line, size_t line_len,
                                uint64_t length[1]);

/* The correction sheet. */

/* A line of a sheet has 72 bytes and a line feed; an error takes at most three lines. */
#define PURPLE_GARDEN_SHEET_LINE_BYTES 73
#define PURPLE_GARDEN_SHEET_LINES 3

/* The correction sheet of errors, five cells each as a reading leaves them in `diagnostics`; lend
 * only the used part. `sheet` gets the lines and keeps what lies behind them; `length` gets their
 * bytes. There is no zero byte at the end. A line holds the error's line in places 1 to 5, its
 * column in 7 to 11, its number in 13 and 14, its words (docs/WORDS.md) in 16 to 72; longer words
 * go on at place 16 of the next line under a blank margin. 1; then for each error in turn 42, it
 * has no words, else 3, it starts past the script's end; last 44, `sheet` is too short: nothing
 * changed, `length` neither. */
uint32_t purple_garden_sheet(const uint8_t *script, size_t script_len,
                             const uint32_t *errors, size_t errors_len,
                             uint8_t *sheet, size_t sheet_len, uint64_t length[1]);

#ifdef __cplusplus
}
#endif

#endif
