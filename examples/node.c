/* node.c: the loop of a node on the house table, over libnode.a. Built and run by examples/run.
 * node.rs is the same in Rust, and both print expected.txt. */
#include "node.h"

#include <inttypes.h>
#include <stdio.h>
#include <stdlib.h>
#include <string.h>

enum { TASKS = 4, TICKS = 40, STOP_AFTER = 25 };

/* The oscillator takes two ticks to start and much more power than sleep does: the last two ticks
 * of each slot are counted and booked apart. Powers are in microwatts. */
enum { WAKING = 2, RUN_POWER = 23000, SLEEP_POWER = 16, WAKING_POWER = 9000 };

/* The sleep record, then the tasks: label, work, period. */
static const struct node_record house[1 + TASKS] = {
    {10, 8, 20}, {11, 2, 20}, {12, 3, 50}, {13, 2, 100}, {14, 4, 200},
};

/* The worst pattern: each task's first release; the next ones come a period apart. */
static const uint32_t first_release[TASKS] = {20, 1, 1, 1};

/* All that a node has to keep. Lay it in memory that survives a stop, such as a noinit or backup
 * RAM section. Nothing zeroes it there, hence the memset in start(). */
struct memory {
    uint32_t state[NODE_STATE_WORDS];
    uint32_t tally[NODE_TALLY_WORDS];
};
static struct memory memory;

/* Gives an accepted answer back. Firmware would log the number and go to a safe state. */
static uint64_t check(uint64_t answer)
{
    if (node_number(answer) != NODE_ACCEPTED) {
        fprintf(stderr, "refused %" PRIu32 "\n", node_number(answer));
        exit(1);
    }
    return answer;
}

/* Firmware would sleep till the timer of the next tick: in a slot or tail tick nothing may run. */
static void node_sleep_one_tick(void) {}

/* One tick of a task's work. Firmware would then wait for the timer of the next tick. */
static void read_sensor(void) {}
static void compute(void) {}
static void move_valve(void) {}
static void talk(void) {}
static void (*const work[TASKS])(void) = {read_sensor, compute, move_valve, talk};

/* Start is allowed on a set that is not admitted, so the test comes first. */
static void start(void)
{
    uint8_t table[(1 + TASKS) * NODE_RECORD_BYTES];
    uint32_t verdict[NODE_VERDICT_WORDS];

    for (uint32_t k = 0; k < 1 + TASKS; k++)
        node_put_record(table, sizeof table, k, house[k]);
    uint32_t tasks =
        node_place(check(node_admit(table, sizeof table, verdict, NODE_VERDICT_WORDS)));
    printf("task window figure rounds\n");
    for (uint32_t task = 1; task <= tasks; task++) {
        struct node_row row = node_row_in(verdict, task);
        printf("%" PRIu32 " %" PRIu32 " %" PRIu32 " %" PRIu32 "\n", task, row.window, row.figure,
               row.rounds);
    }
    printf("admitted %" PRIu32 "\n", tasks);

    check(node_start(table, sizeof table, WAKING, memory.state, NODE_STATE_WORDS));
    memset(memory.tally, 0, sizeof memory.tally);
}

/* One tick of the node, and its character in the picture. */
static char tick(uint32_t clock)
{
    for (uint32_t task = 1; task <= TASKS; task++) {
        uint32_t first = first_release[task - 1];
        if (clock >= first && (clock - first) % house[task].period == 0)
            check(node_release(memory.state, NODE_STATE_WORDS, task, house[task].work));
    }
    uint64_t answer =
        check(node_step(memory.state, NODE_STATE_WORDS, memory.tally, NODE_TALLY_WORDS));
    if (node_kind(answer) == NODE_RUN) {
        work[node_task(answer) - 1]();
        return (char)('0' + node_task(answer));
    }
    node_sleep_one_tick();
    return node_kind(answer) == NODE_SLOT ? 'z' : '.';
}

/* A stop that the memory does not survive: saved before, say to flash, and restored after. */
static void stop(void)
{
    struct memory saved = memory;

    memset(&memory, 0, sizeof memory);
    uint64_t answer =
        node_step(memory.state, NODE_STATE_WORDS, memory.tally, NODE_TALLY_WORDS);
    memory = saved;
    printf("stop after tick %d: saved, wiped (a step is refused %" PRIu32 "), restored\n",
           STOP_AFTER, node_number(answer));
}

int main(void)
{
    char picture[TICKS + 1] = "";
    uint32_t clock;

    start();
    /* The clock is read from the state, so that after a stop the loop goes on where it was. */
    while ((clock = node_clock_in(memory.state)) < TICKS) {
        picture[clock] = tick(clock);
        if (clock == STOP_AFTER)
            stop();
    }
    printf("ticks 0 to %d, z slot, . tail, a digit the task that ran:\n", TICKS - 1);
    printf("%s\n", picture);
    struct node_tally counts = node_tally_in(memory.tally);
    printf("run %" PRIu32 ", slot %" PRIu32 ", tail %" PRIu32 ", waking %" PRIu32
           ": the last %" PRIu32 " ticks of each slot\n",
           counts.run, counts.slot, counts.tail, counts.waking, node_waking_in(memory.state));
    uint64_t energy = check(
        node_energy(memory.tally, NODE_TALLY_WORDS, RUN_POWER, SLEEP_POWER, WAKING_POWER));
    printf("%llu nanojoules at %d, %d and %d microwatts for run, sleep and waking\n",
           (unsigned long long)node_nanojoules(energy), RUN_POWER, SLEEP_POWER, WAKING_POWER);

    struct memory before = memory;
    uint32_t refusal =
        node_number(node_release(memory.state, NODE_STATE_WORDS, 2, house[2].work));
    printf("task 2 released again at tick %" PRIu32 ": refused %" PRIu32 "%s\n", clock, refusal,
           refusal == NODE_REFUSED_EARLY ? ", its last release is fewer than its period ago" : "");
    printf("the state's words: %s\n",
           memcmp(before.state, memory.state, sizeof memory.state) == 0 ? "unchanged" : "changed");
    return 0;
}
