/*
 * Prints the figures of the sheets on standard input, each after its length, for a step of a build: it succeeds if
 * there are sheets and all of them are valid.
 *
 *     samples/stream | figures
 */
#include <stdio.h>
#include <stdlib.h>

#include "recovery.h"

/* Zeros: the state of no bytes. */
static struct recovery_stream stream;

/* Lent to each call as the one before left them. */
static struct recovery_tables tables;
static uint64_t memo[RECOVERY_MEMO_WORDS];

/* Where a piece ends makes no difference. */
static uint8_t piece[4096];

static int fail(const char *message)
{
    fprintf(stderr, "figures: %s\n", message);
    return EXIT_FAILURE;
}

int main(void)
{
    uint64_t figures[RECOVERY_FIGURE_NUMBERS] = {0};
    uint8_t line[RECOVERY_LINE_BYTES] = {0};
    uint8_t done = 0;
    size_t length;

    while (!done && (length = fread(piece, 1, sizeof piece, stdin)) > 0)
        done = recovery_figures_feed(piece, length, stream.numbers, stream.begun, tables.heads, tables.nodes,
                                     tables.sets, memo);
    if (ferror(stdin))
        return fail("the input could not be read");
    recovery_figures_end(stream.numbers, stream.begun, figures);
    length = recovery_figures_print(figures, line);
    if (fwrite(line, 1, length, stdout) != length || fflush(stdout) != 0)
        return fail("the figures could not be written");
    if (figures[RECOVERY_FIGURE_INVALID] + figures[RECOVERY_FIGURE_STOPPED] + figures[RECOVERY_FIGURE_REFUSED] > 0)
        return fail("not every sheet is valid");
    return figures[RECOVERY_FIGURE_VALID] > 0 ? EXIT_SUCCESS : fail("there is no sheet");
}
