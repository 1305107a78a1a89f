/* answers.c: every refusal met by its name, and every reader of node.h used, with places out of
 * range among them. answers.rs is the same in Rust, and both print answers.txt. */
#include "node.h"

#include <inttypes.h>
#include <stdio.h>
#include <string.h>

enum { RECORDS = 3 };

/* Sleep 2 in 3, and two tasks. */
static const struct node_record set[RECORDS] = {{7, 2, 3}, {8, 1, 6}, {9, 3, 20}};

static uint8_t table[RECORDS * NODE_RECORD_BYTES];
static uint32_t verdict[NODE_VERDICT_WORDS];
static uint32_t state[NODE_STATE_WORDS];
static uint32_t tally[NODE_TALLY_WORDS];

static uint64_t admit(void) { return node_admit(table, sizeof table, verdict, NODE_VERDICT_WORDS); }
static uint64_t step(void) { return node_step(state, NODE_STATE_WORDS, tally, NODE_TALLY_WORDS); }
static uint64_t start(uint32_t waking)
{
    return node_start(table, sizeof table, waking, state, NODE_STATE_WORDS);
}
static uint64_t release(uint32_t task, uint32_t demand)
{
    return node_release(state, NODE_STATE_WORDS, task, demand);
}

/* The admission test with another record k. */
static uint64_t admit_with(uint32_t k, uint32_t work, uint32_t period)
{
    struct node_record other = {set[k].label, work, period};
    uint64_t answer;

    node_put_record(table, sizeof table, k, other);
    answer = admit();
    node_put_record(table, sizeof table, k, set[k]);
    return answer;
}

static void show_answer(const char *what, uint32_t number, uint64_t answer)
{
    printf("%s, %" PRIu32 ": answer %" PRIu32 ", place %" PRIu32 ", rounds %" PRIu32 "\n", what,
           number, node_number(answer), node_place(answer), node_rounds(answer));
}

static void show_step(void)
{
    uint32_t clock = node_clock_in(state);
    uint64_t answer = step();
    const char *kind = "none of these";

    switch (node_kind(answer)) {
    case NODE_RUN: kind = "run"; break;
    case NODE_SLOT: kind = "slot"; break;
    case NODE_TAIL: kind = "tail"; break;
    case NODE_REFUSED: kind = "refused"; break;
    }
    printf("step at %" PRIu32 ": %s, task %" PRIu32 "\n", clock, kind, node_task(answer));
}

static void show_steps(int count)
{
    while (count-- > 0)
        show_step();
}

static void show_entry(uint32_t task)
{
    struct node_entry e = node_entry_in(state, task);

    printf("task %" PRIu32 ": record %" PRIu32 " %" PRIu32 " %" PRIu32 ", job %" PRIu32 " %" PRIu32
           " %" PRIu32 ", last %" PRIu32 " %" PRIu32 "\n",
           task, e.record.label, e.record.work, e.record.period, e.working, e.release, e.left,
           e.released_before, e.last_release);
}

static void show_row(uint32_t task)
{
    struct node_row row = node_row_in(verdict, task);

    printf("row %" PRIu32 ": %" PRIu32 " %" PRIu32 " %" PRIu32 "\n", task, row.window, row.figure,
           row.rounds);
}

static void show_tally(void)
{
    struct node_tally counts = node_tally_in(tally);

    printf("tally %" PRIu32 " %" PRIu32 " %" PRIu32 " %" PRIu32 "\n", counts.run, counts.slot,
           counts.tail, counts.waking);
}

static void show_table(void)
{
    for (uint32_t k = 0; k <= RECORDS; k++) {
        int written = node_put_record(table, sizeof table, k, set[k % RECORDS]);
        printf("record %" PRIu32 ": %s\n", k, written ? "written" : "no room");
    }
    show_answer("admitted", NODE_ACCEPTED, admit());
    for (uint32_t task = 0; task <= RECORDS; task++)
        show_row(task);
    show_row(NODE_PLACES + 1);
    show_answer("length", NODE_REFUSED_LENGTH, node_start(table, 15, 0, state, NODE_STATE_WORDS));
    show_answer("broken", NODE_REFUSED_BROKEN, admit_with(2, 0, 20));
    show_answer("falling", NODE_REFUSED_FALLING, admit_with(2, 1, 5));
    show_answer("sleep", NODE_REFUSED_SLEEP, admit_with(0, 3, 3));
    show_answer("no window", NODE_REFUSED_NO_WINDOW, admit_with(2, 4, 20));
    show_answer("long waking", NODE_REFUSED_LONG_WAKING, start(set[0].work + 1));
}

/* Two jobs, and all that a release can be refused for. */
static void show_releases(void)
{
    show_answer("unfit", NODE_REFUSED_UNFIT, release(1, 1));
    show_answer("started", NODE_ACCEPTED, start(1));
    show_steps(3);
    show_answer("task 1 released", NODE_ACCEPTED, release(1, 1));
    show_step();
    show_answer("task 2 released", NODE_ACCEPTED, release(2, 2));
    show_steps(2);
    struct node_record sleep = node_sleep_in(state);
    printf("clock %" PRIu32 ", tasks %" PRIu32 ", waking %" PRIu32 ", sleep %" PRIu32 " %" PRIu32
           " %" PRIu32 "\n",
           node_clock_in(state), node_tasks_in(state), node_waking_in(state), sleep.label,
           sleep.work, sleep.period);
    for (uint32_t task = 0; task <= RECORDS; task++)
        show_entry(task);
    show_entry(NODE_PLACES + 1);
    show_answer("no task", NODE_REFUSED_NO_TASK, release(3, 1));
    show_answer("demand", NODE_REFUSED_DEMAND, release(1, 2));
    show_answer("working", NODE_REFUSED_WORKING, release(2, 1));
    show_answer("early", NODE_REFUSED_EARLY, release(1, 1));
    show_step();
    show_answer("off boundary", NODE_REFUSED_OFF_BOUNDARY, release(1, 1));
}

/* The tally is read, lost and made anew; then the waking length is damaged, and the clock is set to
 * its end. */
static void show_tallies(void)
{
    show_steps(3);
    show_tally();
    uint64_t energy = node_energy(tally, NODE_TALLY_WORDS, 1000000, 1, 1000);
    printf("energy %llu\n", (unsigned long long)node_nanojoules(energy));
    energy = node_energy(tally, NODE_TALLY_WORDS, 1000000, 1, 1000001);
    show_answer("power", NODE_REFUSED_POWER, energy);
    memset(tally, 0, sizeof tally);
    show_step();
    tally[NODE_TAIL] = node_clock_in(state);
    show_step();
    show_tally();
    state[NODE_WAKING_AT] = set[0].work + 1;
    show_answer("waking above S", NODE_REFUSED_UNFIT, step());
    state[NODE_WAKING_AT] = 1;
    state[NODE_CLOCK_AT] = NODE_CLOCK_END;
    tally[NODE_TAIL] = NODE_CLOCK_END - 1;
    show_answer("clock end", NODE_REFUSED_CLOCK_END, step());
}

int main(void)
{
    printf("places %d, table %d, verdict %d, state %d, tally %d\n", NODE_PLACES, NODE_TABLE_BYTES,
           NODE_VERDICT_WORDS, NODE_STATE_WORDS, NODE_TALLY_WORDS);
    show_table();
    show_releases();
    show_tallies();
    return 0;
}
