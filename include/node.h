/* node.h: the scheduler of a battery node, for firmware in C or C++. node.rs is the same for Rust.
 *
 * Link with libnode.a (README.md: how it is built). Nothing is kept between calls and nothing is
 * allocated: the state and the tally lie in buffers that the caller lends, so they may lie in
 * memory that survives a stop. A table is bytes; state, tally and verdict are 32-bit words. Any
 * bytes, words, lengths and numbers may be handed in. What the caller owes: a pointer that is not
 * null, is aligned as its type asks and leads to as many bytes or words as its length says, and
 * buffers of one call that do not overlap. A call takes less than 2,000 bytes of stack, a release
 * or a step less than 200 (docs/PERFORMANCE.md).
 *
 * Every call gives one answer, a number of 64 bits. Its low byte is NODE_ACCEPTED or the refusal's
 * number; above it stands what comes back, read by the functions below, and zeros where nothing
 * does. A refused call leaves every buffer as it was (but for the verdict under refusal 5). Where
 * several refusals apply the lowest number is given. A buffer of another length than its own, and
 * words that encode no state, get 6; so a buffer that was wiped is not mistaken for a state. Words
 * that were damaged into another lawful state can't be told from it: memory that may be damaged
 * wants a checksum of the caller's own.
 *
 * THE TALLY is zeros first, then the same is lent to each step. A step gets 6 where the counts do
 * not sum to the clock. So after a lost tally every step gets 6, while releases are still accepted.
 * It is made anew of any four counts that sum to the clock, say the clock as tail: steps go on,
 * and how the ticks before were split is unknown.
 *
 * WAKING costs more than sleeping: before a sleep slot ends the oscillator starts up. A start is
 * given the ticks that this takes, the waking length V. The last V ticks of each slot count as
 * waking and not as slot, and have a power of their own in the energy. They are slot ticks in all
 * else: a step answers NODE_SLOT, and nothing runs.
 *
 * THE CLOCK'S END. A clock at 1,000,000,000, which is 11.57 days of milliseconds, takes no release
 * and no step: 7. To go on, add the tally's counts to sums kept elsewhere, and start anew with a
 * tally of zeros. A start forgets jobs and last releases: do it before the end, while all tasks
 * rest, or the jobs at work are lost.
 *
 * A STOP between two calls: state and tally as they stood then go on exactly as if there had been
 * none. A stop inside a call, or while they are saved, can leave a mixture of words from before and
 * after, and some mixtures encode a lawful state that no call can tell from a true one. What helps
 * is two copies of state and tally, and a word that names the good one: copy the good one over the
 * other, make the calls of the tick on that, and write the word last, when all else has reached the
 * memory. After a stop go on with the copy that it names.
 */
#ifndef LUNDZARGEL_NODE_H
#define LUNDZARGEL_NODE_H

#include <stdint.h>

#ifdef __cplusplus
extern "C" {
#endif

enum {
    NODE_PLACES = 16,            /* the most tasks */
    NODE_RECORD_BYTES = 16,      /* of a table: label, work, period, a reserved 0 */
    NODE_TABLE_BYTES = 272,      /* the longest table: the sleep record and 16 tasks */
    NODE_STATE_WORDS = 151,      /* a state: NODE_HEAD_WORDS, and NODE_PLACE_WORDS for each place */
    NODE_HEAD_WORDS = 7,
    NODE_PLACE_WORDS = 9,
    NODE_TALLY_WORDS = 4,        /* a tally: the run, slot, tail and waking ticks */
    NODE_VERDICT_WORDS = 48,     /* a verdict: 16 windows, 16 figures, 16 rounds */
    NODE_N_AT = 4,               /* the word of a state that holds n, the number of tasks, */
    NODE_CLOCK_AT = 5,           /* the one that holds its clock, */
    NODE_WAKING_AT = 6,          /* and the one that holds its waking length V */
    NODE_CLOCK_END = 1000000000  /* where a clock ends */
};

/* The number of an answer. */
enum {
    NODE_ACCEPTED = 0,
    NODE_REFUSED_LENGTH = 1,        /* the table's length is no multiple of 16, or not that of 2 to
                                       17 records */
    NODE_REFUSED_BROKEN = 2,        /* a record breaks 1 <= work <= period <= 60,000, or its
                                       reserved field is not 0 */
    NODE_REFUSED_FALLING = 3,       /* a task's period is below that of the task before */
    NODE_REFUSED_SLEEP = 4,         /* the sleep time S is the harmonizing period H, or the first
                                       task's period is no multiple of H */
    NODE_REFUSED_NO_WINDOW = 5,     /* a task has no window */
    NODE_REFUSED_UNFIT = 6,         /* a state or tally breaks a rule, or is none at all */
    NODE_REFUSED_CLOCK_END = 7,     /* the clock stands at 1,000,000,000 */
    NODE_REFUSED_NO_TASK = 8,       /* no task of that number */
    NODE_REFUSED_DEMAND = 9,        /* the demand is not 1 to the task's work */
    NODE_REFUSED_OFF_BOUNDARY = 10, /* task 1 released off a multiple of H */
    NODE_REFUSED_WORKING = 11,      /* that task is still working */
    NODE_REFUSED_EARLY = 12,        /* its last release is fewer than its period ago */
    NODE_REFUSED_POWER = 13,        /* a power figure is above 1,000,000 microwatts */
    NODE_REFUSED_LONG_WAKING = 14   /* the waking length V is above the sleep time S */
};

/* What a tick was. NODE_REFUSED is no tick: the step was refused. */
enum { NODE_RUN = 0, NODE_SLOT = 1, NODE_TAIL = 2, NODE_REFUSED = 255 };

/* A place of the tally alone, and no kind of tick: what is counted there was answered NODE_SLOT. */
enum { NODE_WAKING = 3 };

/* Table, by record: label, work, period and a reserved 0, each a 32-bit number, low byte first
 * (little-endian). Record 0 is the sleep record, the others are the tasks, highest priority first.
 *
 * The words of the other buffers are the machine's own: they are read and written as any uint32_t,
 * and what was saved is restored by a machine of the same byte order.
 *
 * State, by word:
 *   0 to 3   the sleep record: label, work S, period H, reserved
 *   4        n, the number of tasks (NODE_N_AT)
 *   5        the clock (NODE_CLOCK_AT)
 *   6        the waking length V (NODE_WAKING_AT), at most S
 *   7 + 9 i  the task at place i, from 0 to 15: label, work, period, reserved;
 *            1 at work, 0 resting; its release tick and its work left, 0 and 0 where it rests;
 *            1 released before, 0 never; its last release tick, 0 where never.
 *            Other kinds than 0 and 1, and anything but 0 where 0 is said, encode no state.
 *            After the n tasks all nine words of a place are 0.
 * Tally: run, slot, tail and waking ticks, at NODE_RUN, NODE_SLOT, NODE_TAIL and NODE_WAKING.
 * Verdict: by task from place 0 on, the windows, then the figures, then the rounds.
 */

/* Lengths are 64 bits wide in the compiled calls on every processor, 32-bit ones included, so one
 * header serves all. table_len counts bytes, the others count words and so are no sizeof. */

/* The admission test. Admitted: place is the number of tasks. Refusals 1 to 5: place is the record
 * (1 to 4) or the task (5), rounds what was spent on that task. The verdict is written where the
 * test was made, that is, where the set is admitted or gets 5, with zeros from the failing task on;
 * under 1 to 4 it is unchanged. A verdict of another length is not written: an admitted set then
 * gets 6, one that gets 1 to 5 keeps that number. */
uint64_t node_admit(const uint8_t *table, uint64_t table_len,
                    uint32_t *verdict, uint64_t verdict_len);

/* A fresh state of a table and a waking length, 0 to S. Refusals 1 to 4, place the record, 6 and
 * 14: the buffer then holds what it held, perhaps an older state, so look at the answer. A set that
 * gets 5 may be started. */
uint64_t node_start(const uint8_t *table, uint64_t table_len, uint32_t waking,
                    uint32_t *state, uint64_t state_len);

/* A release of a task, from 1, at the state's clock: before the step of that tick, in any order.
 * demand is this job's work in ticks, 1 to the task's work. Task 1 comes at multiples of H alone,
 * and releases of a task are at least its period apart. Refusals 6 to 12. */
uint64_t node_release(uint32_t *state, uint64_t state_len, uint32_t task, uint32_t demand);

/* One tick: kind is NODE_RUN, NODE_SLOT or NODE_TAIL, task the one that ran, from 1. The state goes
 * one tick on and one of the tally's counts up by one. Refusals 6 and 7. */
uint64_t node_step(uint32_t *state, uint64_t state_len, uint32_t *tally, uint64_t tally_len);

/* The energy of a tally in nanojoules, powers in microwatts; slot and tail are at sleep power.
 * Refusals 6 and 13, with energy 0. */
uint64_t node_energy(const uint32_t *tally, uint64_t tally_len,
                     uint32_t run_power, uint32_t sleep_power, uint32_t waking_power);

/* The parts of an answer: its number, of any call; the place, of admission and start; the rounds, of
 * admission. */
static inline uint32_t node_number(uint64_t answer) { return (uint32_t)(answer & 0xff); }
static inline uint32_t node_place(uint64_t answer) { return (uint32_t)(answer >> 8 & 0xff); }
static inline uint32_t node_rounds(uint64_t answer) { return (uint32_t)(answer >> 16); }

/* Of a step. A refused one has kind NODE_REFUSED; a tick that is no run has task 0. */
static inline uint32_t node_kind(uint64_t answer)
{
    if (node_number(answer) != NODE_ACCEPTED)
        return NODE_REFUSED;
    return (uint32_t)(answer >> 8 & 0xff);
}
static inline uint32_t node_task(uint64_t answer)
{
    if (node_kind(answer) != NODE_RUN)
        return 0;
    return (uint32_t)(answer >> 16);
}

/* Of an energy reading. */
static inline uint64_t node_nanojoules(uint64_t answer) { return answer >> 8; }

/* What stands in the buffers, each of its own length. Nothing is tested: words that encode no state
 * are given as they stand. Tasks are counted from 1, as in the calls; a task that is not 1 to
 * NODE_PLACES has zeros, and after the n tasks a state has zeros too. */

struct node_record {
    uint32_t label, work, period;
};

struct node_entry {
    struct node_record record;
    uint32_t working;         /* 1 at work, 0 resting */
    uint32_t release, left;   /* release tick and work left of the job at work */
    uint32_t released_before; /* 1 yes, 0 never */
    uint32_t last_release;    /* tick */
};

struct node_tally {
    uint32_t run, slot, tail, waking;
};

struct node_row {
    uint32_t window, figure, rounds;
};

static inline uint32_t node_clock_in(const uint32_t *state) { return state[NODE_CLOCK_AT]; }
static inline uint32_t node_tasks_in(const uint32_t *state) { return state[NODE_N_AT]; }
static inline uint32_t node_waking_in(const uint32_t *state) { return state[NODE_WAKING_AT]; }

/* The sleep record: work is S, period is H. */
static inline struct node_record node_sleep_in(const uint32_t *state)
{
    struct node_record sleep = {state[0], state[1], state[2]};
    return sleep;
}

static inline struct node_entry node_entry_in(const uint32_t *state, uint32_t task)
{
    struct node_entry entry = {{0, 0, 0}, 0, 0, 0, 0, 0};
    if (task >= 1 && task <= NODE_PLACES) {
        const uint32_t *at = state + NODE_HEAD_WORDS + NODE_PLACE_WORDS * (task - 1);
        entry.record.label = at[0];
        entry.record.work = at[1];
        entry.record.period = at[2];
        entry.working = at[4];
        entry.release = at[5];
        entry.left = at[6];
        entry.released_before = at[7];
        entry.last_release = at[8];
    }
    return entry;
}

static inline struct node_tally node_tally_in(const uint32_t *tally)
{
    struct node_tally counts = {tally[NODE_RUN], tally[NODE_SLOT], tally[NODE_TAIL],
                                tally[NODE_WAKING]};
    return counts;
}

/* A task's row of a verdict; one without a window has zeros. */
static inline struct node_row node_row_in(const uint32_t *verdict, uint32_t task)
{
    struct node_row row = {0, 0, 0};
    if (task >= 1 && task <= NODE_PLACES) {
        row.window = verdict[task - 1];
        row.figure = verdict[NODE_PLACES + task - 1];
        row.rounds = verdict[2 * NODE_PLACES + task - 1];
    }
    return row;
}

/* Writes record k of a table, from 0, with its reserved 0. Gives 1, or 0 where the table is too
 * short for it, and then nothing is written. */
static inline int node_put_record(uint8_t *table, uint64_t table_len, uint32_t k,
                                  struct node_record record)
{
    const uint32_t words[4] = {record.label, record.work, record.period, 0};
    uint32_t i;
    if (table_len / NODE_RECORD_BYTES <= k)
        return 0;
    table += (uint64_t)NODE_RECORD_BYTES * k;
    for (i = 0; i < NODE_RECORD_BYTES; i++)
        table[i] = (uint8_t)(words[i / 4] >> 8 * (i % 4));
    return 1;
}

#ifdef __cplusplus
}
#endif

#endif
