/* Elects on a small election, and asks for the verdict on what was elected.
 *
 *     cc example.c $(pkg-config --cflags --libs npos) -o example && ./example
 *
 * The election is spelled in JSON; a program that has many of them writes SCALE itself, as docs/RULES.md says. */
#include <npos.h>

#include <stdio.h>
#include <stdlib.h>

/* Two seats, three targets, and two voters: one with 60 for the first two targets, one with 40 for the last two. */
static const char ELECTION[] =
    "{\"seats\":2,\"targets\":["
    "\"0000000000000000000000000000000000000000000000000000000000000001\","
    "\"0000000000000000000000000000000000000000000000000000000000000002\","
    "\"0000000000000000000000000000000000000000000000000000000000000003\"],\"voters\":["
    "{\"account\":\"0000000000000000000000000000000000000000000000000000000000000004\",\"stake\":60,\"votes\":[0,1]},"
    "{\"account\":\"0000000000000000000000000000000000000000000000000000000000000005\",\"stake\":40,\"votes\":[1,2]}],"
    "\"work\":null}";

int main(void) {
    uint8_t bundle[512];
    size_t size = 0;
    uint32_t answer = npos_c_report(NPOS_PACK, 0, (const uint8_t *)ELECTION, sizeof ELECTION - 1, bundle, sizeof bundle, &size);
    if (answer != NPOS_DONE) {
        fprintf(stderr, "the election is not packed: %u\n", (unsigned)answer);
        return EXIT_FAILURE;
    }

    uint16_t committee[NPOS_MOST_MEMBERS];
    uint8_t solution[512];
    npos_mined mined;
    answer = npos_c_mine(NPOS_MMS, 8, bundle, size, committee, NPOS_MOST_MEMBERS, solution, sizeof solution, &mined);
    if (answer != NPOS_DONE) {
        fprintf(stderr, "nothing that passes was mined: %u\n", (unsigned)answer);
        return EXIT_FAILURE;
    }
    printf("npos %s elects", npos_version());
    for (size_t i = 0; i < mined.members; i++) printf(" %u", (unsigned)committee[i]);
    printf(", with %llu behind the weakest\n", (unsigned long long)mined.minimal);
    return EXIT_SUCCESS;
}
