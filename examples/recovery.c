/*
 * Loads a sheet from standard input, steps through its routine and verifies it:
 *
 *     samples/sheet 02 | recovery [REPLY ...]
 *
 * The replies are reported one after the other; then each action gets the least reply that is accepted.
 */
#include <stdio.h>
#include <stdlib.h>

#include "recovery.h"

#define BUDGET 1000000

/* One byte more than a sheet may have, so that a longer input is refused. */
static uint8_t bytes[RECOVERY_SHEET_BYTES + 1];

static struct recovery_record record;

static uint8_t reply_of(const char *text)
{
    char *end;
    unsigned long number = strtoul(text, &end, 10);

    if (end == text || *end != '\0' || number > UINT8_MAX) {
        fprintf(stderr, "recovery: no reply: %s\n", text);
        exit(EXIT_FAILURE);
    }
    return (uint8_t)number;
}

static uint8_t report(uint8_t reply)
{
    uint8_t answer = recovery_report(record.sheet, record.replies, &record.lengths, reply);

    if (answer == RECOVERY_ACCEPTED)
        printf("  reply %u\n", reply);
    else
        printf("  reply %u: refused %u\n", reply, answer);
    return answer;
}

/* Goes on to the end of the routine. */
static int step(int count, char **replies)
{
    struct recovery_told told = {0};

    while (recovery_next(record.sheet, record.replies, &record.lengths, &told) == RECOVERY_ACCEPTED) {
        if (told.kind == RECOVERY_END) {
            printf("the end, the goal %s\n", told.value == RECOVERY_GOAL_HOLDS ? "holds" : "fails");
            return 1;
        }
        printf("do action %zu\n", told.value);
        if (count > 0) {
            report(reply_of(*replies));
            count--;
            replies++;
        } else {
            uint8_t reply = 0;

            while (report(reply) == RECOVERY_REFUSED_NOT_POSSIBLE)
                reply++;
        }
    }
    printf("a bad record\n");
    return 0;
}

static int verify(size_t length)
{
    uint8_t trace[RECOVERY_TRACE_BYTES] = {0};
    struct recovery_verdict verdict = {0};
    uint8_t answer = recovery_verify(bytes, length, BUDGET, trace, sizeof trace, &verdict);

    if (answer != RECOVERY_ACCEPTED) {
        printf("refused %u\n", answer);
        return 0;
    }
    switch (verdict.kind) {
    case RECOVERY_VALID:
        printf("valid, %llu histories\n", (unsigned long long)verdict.count);
        break;
    case RECOVERY_STOPPED:
        printf("stopped, more than %llu histories\n", (unsigned long long)verdict.count);
        break;
    case RECOVERY_INVALID:
        printf("invalid, %llu histories; this run fails the goal:\n", (unsigned long long)verdict.count);
        printf("  state %u\n", trace[0]);
        for (uint64_t i = 0; i < verdict.length; i++) {
            const uint8_t *done = trace + 1 + 2 * i;

            printf("  action %u, reply %u, state %u\n", recovery_trace_action(done[0]), recovery_trace_reply(done[0]),
                   done[1]);
        }
        answer = recovery_check(bytes, length, trace, 1 + 2 * (size_t)verdict.length);
        printf("  the checker says %s\n", answer == RECOVERY_CHECKED_YES ? "yes" : "no");
    }
    return 1;
}

int main(int count, char **arguments)
{
    size_t length = fread(bytes, 1, sizeof bytes, stdin);
    uint8_t answer;

    if (ferror(stdin)) {
        fprintf(stderr, "recovery: the input could not be read\n");
        return EXIT_FAILURE;
    }
    answer = recovery_load(bytes, length, record.sheet, record.replies, &record.lengths);
    if (answer != RECOVERY_ACCEPTED) {
        printf("refused %u\n", answer);
        return EXIT_FAILURE;
    }
    return step(count - 1, arguments + 1) && verify(length) ? EXIT_SUCCESS : EXIT_FAILURE;
}
