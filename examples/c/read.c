/* read FILE: read a script in strict mode; print how many nodes it has and where each root starts,
 * or the error with its line and column.
 *
 *   tools/build-library
 *   cc -I include -o target/read examples/c/read.c target/staticlib/libc_api.a
 *   target/read FILE
 *
 * Exit status: 0, a tree; 1, the script's own error, which is printed; 2, FILE cannot be read
 * whole, a call was refused, or the answer cannot be written: standard error says which. */
#include <errno.h>
#include <stdio.h>
#include <stdlib.h>
#include <string.h>

#include "purple_garden.h"

/* Ends the program: it could not do its work. */
static void fail(const char *what, const char *why) {
    fprintf(stderr, "read: %s: %s\n", what, why);
    exit(2);
}

/* Ends the program where a call was refused, which no call here should be. */
static void call(const char *name, uint32_t number) {
    if (number != 0) {
        fprintf(stderr, "read: %s: refused with %u\n", name, (unsigned)number);
        exit(2);
    }
}

/* An array of so many cells, and at least one: a pointer that is lent is never null. */
static uint32_t *array(size_t cells) {
    uint32_t *a = calloc(cells + 1, sizeof *a);
    if (!a)
        fail("arrays", "no memory");
    return a;
}

/* Ends the program once all that was printed is written. */
static void end(int status) {
    if (fflush(stdout) != 0 || ferror(stdout))
        fail("standard output", strerror(errno));
    exit(status);
}

/* The script, and one byte more where it is too long. A folder can be opened, and not read. */
static size_t script_of(const char *name, uint8_t *script, size_t room) {
    FILE *file = fopen(name, "rb");
    if (!file)
        fail(name, strerror(errno));
    size_t n = fread(script, 1, room, file);
    if (ferror(file))
        fail(name, strerror(errno));
    fclose(file);
    return n;
}

int main(int argc, char **argv) {
    static uint8_t script[PURPLE_GARDEN_MAX_BYTES + 1];
    if (argc != 2) {
        fputs("usage: read FILE\n", stderr);
        return 2;
    }
    size_t n = script_of(argv[1], script, sizeof script);
    if (n > PURPLE_GARDEN_MAX_BYTES)
        fail(argv[1], "it has over 65,536 bytes");

    size_t nodes_len = PURPLE_GARDEN_NODE_CELLS * n, types_len = PURPLE_GARDEN_TYPE_CELLS * n;
    size_t lists_len = PURPLE_GARDEN_LIST_CELLS * n, roots_len = PURPLE_GARDEN_ROOT_CELLS * n;
    size_t diagnostics_len = PURPLE_GARDEN_DIAGNOSTIC_CELLS * n;
    size_t tokens_len = PURPLE_GARDEN_TOKEN_CELLS * (n + 1);
    size_t errors_len = PURPLE_GARDEN_ERROR_CELLS * n;
    uint32_t *tokens = array(tokens_len), *errors = array(errors_len);
    uint32_t *nodes = array(nodes_len), *types = array(types_len), *lists = array(lists_len);
    uint32_t *roots = array(roots_len), *diagnostics = array(diagnostics_len);
    uint32_t numbers[PURPLE_GARDEN_NUMBERS] = {0};
    uint32_t number = purple_garden_parse(script, n, tokens, tokens_len, errors, errors_len,
                                          nodes, nodes_len, types, types_len,
                                          lists, lists_len, roots, roots_len,
                                          diagnostics, diagnostics_len, numbers);
    uint64_t place[2];
    if (number >= 10) {
        uint32_t at = numbers[PURPLE_GARDEN_ERROR_START];
        call("line_column", purple_garden_line_column(script, n, at, place));
        printf("error %u in line %lu, column %lu\n", (unsigned)number, (unsigned long)place[0],
               (unsigned long)place[1]);
        end(1);
    }
    call("parse", number);
    printf("%u nodes, %u roots\n", (unsigned)numbers[PURPLE_GARDEN_NODES],
           (unsigned)numbers[PURPLE_GARDEN_ROOTS]);
    for (uint32_t i = 0; i < numbers[PURPLE_GARDEN_ROOTS]; i++) {
        uint64_t start[2];
        number = purple_garden_node_start(script, n, nodes, nodes_len, types, types_len,
                                          lists, lists_len, roots, roots_len,
                                          numbers + PURPLE_GARDEN_COUNTS, roots[i], start);
        call("node_start", number);
        if (!start[0]) {
            printf("root %u: node %u, no start\n", (unsigned)i, (unsigned)roots[i]);
            continue;
        }
        call("line_column", purple_garden_line_column(script, n, (uint32_t)start[1], place));
        printf("root %u: node %u, line %lu, column %lu\n", (unsigned)i, (unsigned)roots[i],
               (unsigned long)place[0], (unsigned long)place[1]);
    }
    free(tokens);
    free(errors);
    free(nodes);
    free(types);
    free(lists);
    free(roots);
    free(diagnostics);
    end(0);
}
