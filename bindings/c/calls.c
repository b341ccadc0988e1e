/* Calls each function of npos.h with buffers that are empty, too small and exact, and looks at what
 * is written and at what stays. It is built with and without the address sanitizer. */
#include "../npos.h"

#include <stdio.h>
#include <stdlib.h>
#include <string.h>

static int failed = 0;

#define HOLDS(fact)                                                                               \
    do {                                                                                          \
        if (!(fact)) {                                                                            \
            printf("calls.c:%d: does not hold: %s\n", __LINE__, #fact);                           \
            failed = 1;                                                                           \
        }                                                                                         \
    } while (0)

/* A block of exactly this size, of bytes 0xA5, whose bounds the sanitizer watches. */
static void *block(size_t size) {
    void *made = malloc(size ? size : 1);
    if (!made) abort();
    memset(made, 0xA5, size ? size : 1);
    return made;
}

static int is_untouched(const void *at, size_t size) {
    const uint8_t *bytes = at;
    for (size_t i = 0; i < size; i++)
        if (bytes[i] != 0xA5) return 0;
    return 1;
}

/* Two seats, three targets, three voters, and work that is nothing. */
static const char JSON[] =
    "{\"seats\":2,\"targets\":["
    "\"0000000000000000000000000000000000000000000000000000000000000001\","
    "\"0000000000000000000000000000000000000000000000000000000000000002\","
    "\"0000000000000000000000000000000000000000000000000000000000000003\"],\"voters\":["
    "{\"account\":\"0000000000000000000000000000000000000000000000000000000000000004\","
    "\"stake\":60,\"votes\":[0,1]},"
    "{\"account\":\"0000000000000000000000000000000000000000000000000000000000000005\","
    "\"stake\":40,\"votes\":[1,2]},"
    "{\"account\":\"0000000000000000000000000000000000000000000000000000000000000006\","
    "\"stake\":50,\"votes\":[2]}],\"work\":null}";

/* The report of a task, first into an empty buffer, then into one that is too small by one byte,
 * then into an exact one, then into a larger one. The caller frees the text. */
static uint8_t *report(uint32_t task, const uint8_t *bundle, size_t bundle_size, uint32_t due,
                       size_t *size) {
    uint8_t *none = block(0);
    *size = 77;
    HOLDS(npos_c_report(task, 8, bundle, bundle_size, none, 0, size) == NPOS_SMALL);
    free(none);
    size_t needed = *size;
    HOLDS(needed > 0);

    uint8_t *small = block(needed - 1);
    *size = 77;
    HOLDS(npos_c_report(task, 8, bundle, bundle_size, small, needed - 1, size) == NPOS_SMALL);
    HOLDS(*size == needed && is_untouched(small, needed - 1));
    free(small);

    uint8_t *exact = block(needed);
    *size = 77;
    HOLDS(npos_c_report(task, 8, bundle, bundle_size, exact, needed, size) == due);
    HOLDS(*size == needed);

    uint8_t *large = block(needed + 9);
    HOLDS(npos_c_report(task, 8, bundle, bundle_size, large, needed + 9, size) == due);
    HOLDS(memcmp(large, exact, needed) == 0 && is_untouched(large + needed, 9));
    free(large);
    return exact;
}

static int reads(const uint8_t *text, size_t size, const char *due) {
    return size == strlen(due) && memcmp(text, due, size) == 0;
}

static void check(const uint8_t *bundle, size_t bundle_size) {
    npos_finding finding;
    memset(&finding, 0xA5, sizeof finding);
    HOLDS(npos_c_check(bundle, bundle_size, &finding) == NPOS_BAD_INPUT);
    HOLDS(finding.kind == NPOS_UNSOLVED && finding.number == 0 && finding.first == bundle_size - 1);
    HOLDS(finding.second == 0 && finding.third_high == 0 && finding.third_low == 0);

    uint8_t *none = block(0);
    HOLDS(npos_c_check(none, 0, &finding) == NPOS_BAD_INPUT);
    HOLDS(finding.kind == NPOS_REFUSED && finding.number == 1 && finding.first == 0);
    free(none);

    size_t long_size = 16777217;
    uint8_t *too_long = block(long_size);
    HOLDS(npos_c_check(too_long, long_size, &finding) == NPOS_BAD_INPUT);
    HOLDS(finding.kind == NPOS_LONG && finding.first == 16777216);
    free(too_long);
}

/* Mines by seq into buffers of these sizes. */
static uint32_t mine(const uint8_t *bundle, size_t bundle_size, size_t members, size_t bytes,
                     npos_mined *mined) {
    uint16_t *committee = block(members * sizeof(uint16_t));
    uint8_t *solution = block(bytes);
    uint32_t answer =
        npos_c_mine(NPOS_SEQ, 0, bundle, bundle_size, committee, members, solution, bytes, mined);
    if (answer == NPOS_SMALL) {
        HOLDS(is_untouched(committee, members * sizeof(uint16_t)));
        HOLDS(is_untouched(solution, bytes));
    } else {
        HOLDS(committee[0] < committee[1]);
    }
    free(committee);
    free(solution);
    return answer;
}

static void mine_each(const uint8_t *bundle, size_t bundle_size) {
    npos_mined mined, exact;
    HOLDS(mine(bundle, bundle_size, 0, 0, &mined) == NPOS_SMALL);
    HOLDS(mined.members == 2 && mined.bytes > 16);
    HOLDS(mined.finding.kind == NPOS_JUDGED && mined.finding.number == 0);
    HOLDS(mine(bundle, bundle_size, 1, mined.bytes, &exact) == NPOS_SMALL);
    HOLDS(mine(bundle, bundle_size, 2, mined.bytes - 1, &exact) == NPOS_SMALL);
    HOLDS(mine(bundle, bundle_size, 2, mined.bytes, &exact) == NPOS_DONE);
    HOLDS(memcmp(&mined, &exact, sizeof mined) == 0);
    HOLDS(exact.sum == 150 && exact.squares_high == 0);

    uint16_t committee[3] = {7, 7, 7};
    uint8_t none[1] = {7};
    HOLDS(npos_c_mine(NPOS_FILL, 0, bundle, bundle_size, committee, 3, none, 0, &mined) ==
          NPOS_DONE);
    HOLDS(mined.members == 2 && mined.bytes == 0 && committee[2] == 7 && none[0] == 7);
    HOLDS(npos_c_mine(NPOS_MMS, 8, bundle, bundle_size, committee, 0, none, 0, &mined) ==
          NPOS_SMALL);
    HOLDS(npos_c_mine(NPOS_FILL, 0, none, 0, committee, 3, none + 1, 0, &mined) == NPOS_BAD_INPUT);
    HOLDS(mined.members == 0 && mined.finding.kind == NPOS_REFUSED);

    memset(&mined, 0xA5, sizeof mined);
    uint32_t unknown[][2] = {{0, 8}, {4, 8}, {5, 8}, {0xFFFFFFFF, 8},
                             {3, 0}, {3, 101}, {3, 0xFFFFFFFF}};
    for (size_t i = 0; i < sizeof unknown / sizeof unknown[0]; i++)
        HOLDS(npos_c_mine(unknown[i][0], unknown[i][1], bundle, bundle_size, committee, 3, none, 1,
                          &mined) == NPOS_UNKNOWN);
    HOLDS(is_untouched(&mined, sizeof mined) && none[0] == 7);
}

/* One seat, two targets, and a voter that nominates the first; the committee is the second. */
static const char DENYING[] =
    "{\"seats\":1,\"targets\":["
    "\"0000000000000000000000000000000000000000000000000000000000000001\","
    "\"0000000000000000000000000000000000000000000000000000000000000002\"],\"voters\":["
    "{\"account\":\"0000000000000000000000000000000000000000000000000000000000000004\","
    "\"stake\":60,\"votes\":[0]}],\"work\":{\"committee\":[1],\"edges\":[]}}";

static const char ANSWERING[] =
    "{\"seats\":1,\"targets\":["
    "\"0000000000000000000000000000000000000000000000000000000000000001\"],\"voters\":["
    "{\"account\":\"0000000000000000000000000000000000000000000000000000000000000004\","
    "\"stake\":60,\"votes\":[0]}],\"work\":{\"committee\":[0],\"edges\":[]}}";

/* Judges into buffers of these sizes. */
static uint32_t judge(const uint8_t *bundle, size_t bundle_size, size_t voters, size_t targets,
                      npos_denied *denied) {
    uint32_t *group = block(voters * sizeof(uint32_t));
    uint16_t *members = block(targets * sizeof(uint16_t));
    uint32_t answer =
        npos_c_judge(bundle, bundle_size, group, voters, members, targets, denied);
    if (answer != NPOS_NO) {
        HOLDS(is_untouched(group, voters * sizeof(uint32_t)));
        HOLDS(is_untouched(members, targets * sizeof(uint16_t)));
    } else if (denied->voters) {
        HOLDS(group[0] == 0 && denied->voters == 1);
    }
    free(group);
    free(members);
    return answer;
}

static void judge_each(const uint8_t *without_work, size_t size) {
    npos_denied denied;
    HOLDS(judge(without_work, size, 1, 1, &denied) == NPOS_BAD_INPUT);
    HOLDS(denied.finding.kind == NPOS_UNSOLVED && denied.finding.first == size - 1);
    HOLDS(denied.voters == 0 && denied.stake == 0);

    size_t bundle_size;
    uint8_t *bundle = report(NPOS_PACK, (const uint8_t *)DENYING, sizeof DENYING - 1, NPOS_DONE,
                             &bundle_size);
    HOLDS(judge(bundle, bundle_size, 0, 0, &denied) == NPOS_SMALL);
    HOLDS(denied.voters == 1 && denied.members == 0 && denied.seats == 1 && denied.stake == 60);
    HOLDS(denied.finding.kind == NPOS_JUDGED && denied.finding.number == 10);
    HOLDS(denied.finding.first == 0 && denied.finding.second == 60);
    HOLDS(judge(bundle, bundle_size, 1, 0, &denied) == NPOS_NO);
    HOLDS(judge(bundle, bundle_size, 2, 2, &denied) == NPOS_NO);
    free(bundle);

    bundle = report(NPOS_PACK, (const uint8_t *)ANSWERING, sizeof ANSWERING - 1, NPOS_DONE,
                    &bundle_size);
    HOLDS(judge(bundle, bundle_size, 0, 0, &denied) == NPOS_DONE);
    HOLDS(denied.finding.kind == NPOS_JUDGED && denied.finding.number == 0);
    free(bundle);
}

static void demo(void) {
    size_t size = 77;
    uint8_t *none = block(0);
    HOLDS(npos_c_demo(7, 20, 3, none, 0, &size) == NPOS_SMALL);
    uint8_t *text = block(size), *small = block(size - 1);
    size_t needed = size;
    HOLDS(npos_c_demo(7, 20, 3, small, needed - 1, &size) == NPOS_SMALL && size == needed);
    HOLDS(is_untouched(small, needed - 1));
    HOLDS(npos_c_demo(7, 20, 3, text, needed, &size) == NPOS_DONE && size == needed);
    HOLDS(memcmp(text, "demo targets 12 voters 20 total ", 32) == 0 && text[needed - 1] == '\n');
    size = 77;
    uint32_t unknown[][2] = {{0, 3}, {20, 0}, {16385, 3}, {20, 513}, {0xFFFFFFFF, 0xFFFFFFFF}};
    for (size_t i = 0; i < sizeof unknown / sizeof unknown[0]; i++)
        HOLDS(npos_c_demo(7, unknown[i][0], unknown[i][1], text, needed, &size) == NPOS_UNKNOWN);
    HOLDS(size == 77);
    free(none), free(text), free(small);
}

int main(void) {
    size_t bundle_size, size;
    uint8_t *bundle =
        report(NPOS_PACK, (const uint8_t *)JSON, sizeof JSON - 1, NPOS_DONE, &bundle_size);

    uint8_t *shown = report(NPOS_SHOW, bundle, bundle_size, NPOS_DONE, &size);
    uint8_t *again_size_of;
    size_t again_size;
    again_size_of = report(NPOS_PACK, shown, size, NPOS_DONE, &again_size);
    HOLDS(again_size == bundle_size && memcmp(again_size_of, bundle, bundle_size) == 0);
    free(shown), free(again_size_of);

    uint8_t *told = report(NPOS_CHECK, bundle, bundle_size, NPOS_BAD_INPUT, &size);
    char due[64];
    snprintf(due, sizeof due, "fault %zu nosolution\n", bundle_size - 1);
    HOLDS(reads(told, size, due));
    free(told);
    free(report(NPOS_FILL, bundle, bundle_size, NPOS_DONE, &size));
    free(report(NPOS_SEQ, bundle, bundle_size, NPOS_DONE, &size));
    free(report(NPOS_MMS, bundle, bundle_size, NPOS_DONE, &size));
    told = report(NPOS_SHOW, bundle, 0, NPOS_BAD_INPUT, &size);
    HOLDS(reads(told, size, "fault 0 short\n"));
    free(told);

    size = 77;
    uint8_t none[1] = {7};
    HOLDS(npos_c_report(6, 8, bundle, bundle_size, none, 1, &size) == NPOS_UNKNOWN);
    HOLDS(npos_c_report(NPOS_MMS, 0, bundle, bundle_size, none, 1, &size) == NPOS_UNKNOWN);
    HOLDS(npos_c_report(0xFFFFFFFF, 0, bundle, 0, none, 0, &size) == NPOS_UNKNOWN);
    HOLDS(size == 77 && none[0] == 7);

    check(bundle, bundle_size);
    mine_each(bundle, bundle_size);
    judge_each(bundle, bundle_size);
    demo();
    free(bundle);
    puts(failed ? "calls: failed" : "calls: ok");
    return failed;
}
