/* Has each allocation of each call fail in turn, and looks whether the answer is want of memory and nothing is written.
 * It is linked with --wrap=malloc and --wrap=realloc, so that the library allocates by the functions below. */
#include "../npos.h"

#include <stdio.h>
#include <stdlib.h>
#include <string.h>

void *__real_malloc(size_t size);
void *__real_realloc(void *block, size_t size);

/* how many allocations are granted before all are refused */
static size_t granted = (size_t)-1;

static int is_granted(void) {
    if (granted == 0) return 0;
    granted--;
    return 1;
}

void *__wrap_malloc(size_t size) { return is_granted() ? __real_malloc(size) : NULL; }

void *__wrap_realloc(void *block, size_t size) {
    return is_granted() ? __real_realloc(block, size) : NULL;
}

/* One seat, two targets, one voter, and a committee with one edge as work. */
static const uint8_t JSON[] =
    "{\"seats\":1,\"targets\":["
    "\"0000000000000000000000000000000000000000000000000000000000000001\","
    "\"0000000000000000000000000000000000000000000000000000000000000002\"],\"voters\":["
    "{\"account\":\"0000000000000000000000000000000000000000000000000000000000000003\","
    "\"stake\":60,\"votes\":[0,1]}],\"work\":{\"committee\":[0],\"edges\":[[0,0,60]]}}";

static uint8_t bundle[1024], text[4096];
static size_t bundle_size;
static uint16_t committee[8];
static npos_mined mined;

/* The calls by number: the tasks of a report, then check, mine and demo. What they write is in `text`, `committee` and
 * `mined`. */
static uint32_t call(uint32_t number) {
    size_t *size = &mined.members;
    switch (number) {
    case NPOS_PACK:
        return npos_c_report(number, 0, JSON, sizeof JSON - 1, text, sizeof text, size);
    case 6:
        return npos_c_check(bundle, bundle_size, &mined.finding);
    case 7:
        return npos_c_mine(NPOS_MMS, 1, bundle, bundle_size, committee, 8, text, sizeof text, &mined);
    case 8:
        return npos_c_demo(7, 9, 2, text, sizeof text, size);
    default:
        return npos_c_report(number, 1, bundle, bundle_size, text, sizeof text, size);
    }
}

static int is_untouched(const void *at, size_t size) {
    for (size_t i = 0; i < size; i++)
        if (((const uint8_t *)at)[i] != 0xA5) return 0;
    return 1;
}

int main(void) {
    int failed = 0;
    if (npos_c_report(NPOS_PACK, 0, JSON, sizeof JSON - 1, bundle, sizeof bundle, &bundle_size)) return 1;
    for (uint32_t number = 0; number <= 8; number++) {
        uint32_t answer = NPOS_NO_MEMORY;
        size_t count = 0;
        for (; answer == NPOS_NO_MEMORY && count < 100000; count++) {
            memset(text, 0xA5, sizeof text);
            memset(committee, 0xA5, sizeof committee);
            memset(&mined, 0xA5, sizeof mined);
            granted = count;
            answer = call(number);
            granted = (size_t)-1;
            if (answer == NPOS_NO_MEMORY &&
                !(is_untouched(text, sizeof text) && is_untouched(committee, sizeof committee) &&
                  is_untouched(&mined, sizeof mined))) {
                printf("starved: call %u wrote though allocation %zu was refused\n", number, count);
                failed = 1;
            }
        }
        if (answer != NPOS_DONE || count < 2) {
            printf("starved: call %u answers %u with %zu allocations\n", number, answer, count - 1);
            failed = 1;
        }
    }
    puts(failed ? "starved: failed" : "starved: ok");
    return failed;
}
