/* npos.h: the proved checker and miners of npos, for programs in C.
 *
 * Each function below is written and proved in Rattle (crates/npos_c of the npos repository). Its
 * contract stands there, beside its source, and says exactly what it writes and answers, by the
 * definitions that the program `npos` itself is proved by. docs/RULES.md states them in words.
 *
 * Build. `cd crates/npos_c && rt lib` proves the crate and makes crates/npos_c/out/libnpos_c.a.
 * Link that archive and the kit's c/liblibc_c.a, which allocates with malloc, realloc and free:
 *
 *     cc program.c crates/npos_c/out/libnpos_c.a KIT/c/liblibc_c.a
 *
 * An installed release has both in one library, which pkg-config knows as npos:
 *
 *     cc program.c $(pkg-config --cflags --libs npos)
 *
 * Units. Stakes, supports and scores are in units of stake; sizes are counts of elements, so of
 * bytes for a buffer of uint8_t; places are in bytes from the front of the bundle; voters and
 * targets are positions in their lists, from 0.
 *
 * Bundles. A bundle is one election with work on it, in SCALE (docs/RULES.md, "The bundle that
 * `npos check` and `npos mine` read"). npos_c_report with NPOS_PACK makes one of JSON.
 *
 * Who owns what. The caller owns every buffer and struct before, during and after a call. A call
 * reads the bundle, writes to the other arguments and keeps no pointer; what it allocates it has
 * freed when it returns. Buffers of one call must not overlap. Nothing is written beyond the size
 * that is given for a buffer, and what is not written stays as it was.
 *
 * What a caller owes. No pointer is NULL, also not where its size is 0. A pointer leads to as many
 * elements as its size says, and lies where an element of its type may lie. No size is 2^63 bytes
 * or more. malloc, realloc and free are those of one allocator. Some hundred kilobytes of stack
 * are left. Any other argument is tested: no number is forbidden.
 *
 * Threads. There is no state outside of the arguments: calls may run at the same time in as many
 * threads as one likes, as long as no buffer or struct that one of them writes is in use by
 * another. No call may be made from a signal handler, or from the child of a fork of a process
 * with several threads.
 *
 * Memory. Want of memory is an answer, NPOS_NO_MEMORY: then nothing is written.
 */
#ifndef NPOS_H
#define NPOS_H

#include <stddef.h>
#include <stdint.h>

#ifdef __cplusplus
extern "C" {
#endif

/* ---- The version: of this header, and of the library that is installed from a release. ---- */

#define NPOS_VERSION "1.0.0"
const char *npos_version(void);

/* ---- What a call answers. 0 to 6 are the exit statuses of the program `npos`. ---- */

/* What was asked is done; where there is a verdict, it is Yes. */
#define NPOS_DONE 0u
/* The verdict is not Yes, or a member is lost as weights are packed. */
#define NPOS_NO 1u
/* No task, miner or generated election has these numbers. Nothing is written. */
#define NPOS_UNKNOWN 2u
/* The bundle has a fault. */
#define NPOS_BAD_INPUT 3u
/* Memory was refused. Nothing is written. */
#define NPOS_NO_MEMORY 6u
/* A buffer is too small. No buffer is written; the sizes that are needed are told. */
#define NPOS_SMALL 8u

/* ---- What a call is asked. ---- */

/* The verdict on the work of a bundle. */
#define NPOS_CHECK 0u
/* The greedy fill, which always passes. It is not packed. */
#define NPOS_FILL 1u
/* Sequential Phragmén, packed. */
#define NPOS_SEQ 2u
/* PHRAGMMS, packed. Its balancing rounds after each pick are 1 to 100; the program makes 8 where
 * it is not told. All else looks at no rounds. */
#define NPOS_MMS 3u
/* A bundle in JSON, written in SCALE. */
#define NPOS_PACK 4u
/* A bundle in SCALE, written in JSON. */
#define NPOS_SHOW 5u

/* ---- What is found. ---- */

/* The kinds of findings: */
/* a verdict; `number` is that of the verdict, 0 for Yes, and the details are those of docs/RULES.md,
 * "Verdicts", in their order; */
#define NPOS_JUDGED 0u
/* a member is lost as weights are packed; `first` is its position; */
#define NPOS_LOST 1u
/* the bytes spell no bundle from the place `first` on; `number` says why: 1 short, 2 notshortest,
 * 3 toowide, 4 badtag, 5 toomany, 6 trailing; */
#define NPOS_REFUSED 2u
/* the election has a fault; `number` and the details are those of docs/RULES.md, "Building an
 * election"; */
#define NPOS_UNELECTABLE 3u
/* the work of the bundle is nothing; its tag stands at the place `first`; */
#define NPOS_UNSOLVED 4u
/* the bundle has more bytes than a bundle may have, which are `first`. */
#define NPOS_LONG 5u

/* What was found, in numbers. A detail that it does not have is 0. The third detail is
 * third_high * 2^64 + third_low. */
typedef struct npos_finding {
    uint32_t kind;
    uint32_t number;
    uint64_t first;
    uint64_t second;
    uint64_t third_high;
    uint64_t third_low;
} npos_finding;

/* What was mined. Where nothing was mined all but the finding is 0. */
typedef struct npos_mined {
    /* how many members the committee has */
    size_t members;
    /* how many bytes the packed solution has; 0 for the fill */
    size_t bytes;
    /* the score: the least support of a member, the sum of the supports and the sum of their
     * squares, which is squares_high * 2^64 + squares_low */
    uint64_t minimal;
    uint64_t sum;
    uint64_t squares_high;
    uint64_t squares_low;
    /* the verdict on what was mined, or why nothing was */
    npos_finding finding;
} npos_mined;

/* The most members that a committee has: no larger buffer is needed. */
#define NPOS_MOST_MEMBERS 512

/* The most voters that an election has: no group is larger. */
#define NPOS_MOST_VOTERS 16384

/* Whom a committee denies a seat. Where nobody is denied all but the finding is 0. */
typedef struct npos_denied {
    /* how many voters the group has */
    size_t voters;
    /* how many members some voter of the group nominates */
    size_t members;
    /* how many seats the stake of the group stands for, rounded down: more than members */
    uint64_t seats;
    /* the stake of the group */
    uint64_t stake;
    /* verdict 0 where nobody is denied; verdict 10 where somebody is, whose `first` is the position
     * of the target and whose `second` is what the group holds beyond its members' share, in units;
     * another verdict where the members are no committee; or why there is none */
    npos_finding finding;
} npos_denied;

/* ---- The calls. ---- */

/* Checks the work of a bundle of `bundle_size` bytes.
 *
 * Answers NPOS_DONE where the verdict is Yes, NPOS_NO where it is another one, NPOS_BAD_INPUT
 * where the bundle has a fault, and NPOS_NO_MEMORY. But for the last, `finding` tells the verdict
 * or the fault. NPOS_DONE promises that the committee denies nobody and is proportional to
 * stake. */
uint32_t npos_c_check(const uint8_t *bundle, size_t bundle_size, npos_finding *finding);

/* Mines the election of a bundle; its work is not looked at. `miner` is NPOS_FILL, NPOS_SEQ or
 * NPOS_MMS, the last with 1 to 100 `rounds`.
 *
 * The positions of the members, rising, go to the front of `committee`, which has room for
 * `committee_size` of them, and the packed solution to the front of `solution`, which has room for
 * `solution_size` bytes. Their sizes, the score and the verdict go to `mined`. The score is that of
 * what the solution expands to, and the claim on which the verdict is given.
 *
 * Answers NPOS_DONE where the verdict is Yes, which it always is for the fill; NPOS_NO where it is
 * another one, and where a member is lost as weights are packed; NPOS_SMALL where one of the
 * buffers is too small: then neither is written, and `mined` tells all else; NPOS_BAD_INPUT where
 * the bundle has a fault, which `mined` tells; NPOS_UNKNOWN where there is no such miner; and
 * NPOS_NO_MEMORY. */
uint32_t npos_c_mine(uint32_t miner, uint32_t rounds, const uint8_t *bundle, size_t bundle_size,
                     uint16_t *committee, size_t committee_size, uint8_t *solution,
                     size_t solution_size, npos_mined *mined);

/* Judges the committee of the work of a bundle, whatever its weights: whether it denies somebody a
 * seat. A target outside the committee is denied where some group of voters, who all nominate it,
 * holds the stake of more seats than there are members among all that they nominate. The answer is
 * exact. Of plain work the list of members alone is looked at, of a packed solution the targets in it.
 *
 * Of the lowest target that is denied, the group to which most is due, and the largest of several:
 * the positions of its voters, rising, go to the front of `group`, which has room for `group_size`
 * of them, those of the members that they nominate to the front of `members`, which has room for
 * `members_size`, and the rest to `denied`.
 *
 * Answers NPOS_DONE where nobody is denied: then the committee is proportional to stake, which is
 * proved; NPOS_NO where somebody is, and where the members are no committee; NPOS_SMALL where one of
 * the buffers is too small: then neither is written, and `denied` tells all else; NPOS_BAD_INPUT
 * where the bundle has a fault or no work; and NPOS_NO_MEMORY. */
uint32_t npos_c_judge(const uint8_t *bundle, size_t bundle_size, uint32_t *group, size_t group_size,
                      uint16_t *members, size_t members_size, npos_denied *denied);

/* Writes the exact text that the program would write for a bundle to the front of `text`, which
 * has room for `text_size` bytes, and its size to `size`. No zero byte is put behind it. `task` is
 * NPOS_CHECK, a miner as above, NPOS_PACK or NPOS_SHOW; for NPOS_PACK the bundle is JSON.
 *
 * Answers NPOS_DONE, NPOS_NO or NPOS_BAD_INPUT, whichever status the program would end with;
 * NPOS_SMALL where the text has no room: then `size` alone is written; NPOS_UNKNOWN where there is
 * no such task; and NPOS_NO_MEMORY. */
uint32_t npos_c_report(uint32_t task, uint32_t rounds, const uint8_t *bundle, size_t bundle_size,
                       uint8_t *text, size_t text_size, size_t *size);

/* Writes what `npos demo` would write of the election that `seed` generates with 1 to 16,384
 * `voters` and 1 to 512 `seats`. Answers NPOS_DONE, NPOS_SMALL as above, NPOS_UNKNOWN for other
 * voters or seats, and NPOS_NO_MEMORY. */
uint32_t npos_c_demo(uint64_t seed, uint32_t voters, uint32_t seats, uint8_t *text,
                     size_t text_size, size_t *size);

#ifdef __cplusplus
}
#endif

#endif
