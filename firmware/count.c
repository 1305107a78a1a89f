/* count.c: what the calls cost on this processor, for sets of 1, 4 and 16 tasks. A line has the
 * number of tasks and the rounds of the admission; instructions of admit, start, release, step
 * (run, slot, tail) and energy; then the bytes of stack of the same seven. Each figure is the most
 * that an accepted call took in TICKS ticks, with what its caller does to make it. */
#include "node.h"

#include <inttypes.h>
#include <stdio.h>
#include <stdlib.h>
#include <string.h>

/* The ticks are LATE ones, since a large clock takes longest where division is software. */
enum { LATE = 999999000, TICKS = 400, REPEATS = 100 };
enum { SLEEP = 8, WAKING = 2, HARMONIZING = 20, WORK = 2 };

/* Label, work, period and a 0. These processors have a word's low byte first, as a table has. */
static uint32_t records[1 + NODE_PLACES][4];
static uint32_t table_len, verdict[NODE_VERDICT_WORDS], task;
static struct {
    uint32_t state[NODE_STATE_WORDS], tally[NODE_TALLY_WORDS];
} node, saved;
static uint64_t answer;

/* ---- The counter ---- */

/* The emulator takes an instruction for a nanosecond (-icount shift=0). RISC-V counts instructions.
 * ARM's timer counts down, 24 bits wide, at CLOCK_MHZ. */
#ifdef __riscv

static void start_counter(void) {}

static uint32_t counter(void)
{
    uint32_t count;
    __asm__ volatile(".option push\n"
                     ".option arch, +zicsr\n"
                     "csrr %0, minstret\n"
                     ".option pop"
                     : "=r"(count));
    return count;
}

static uint32_t instructions(uint32_t from, uint32_t to)
{
    return to - from;
}

#define COUNTDOWN "1: addi %0, %0, -1\n bnez %0, 1b"
enum { COUNTDOWN_LENGTH = 2 };
#define READ_STACK_POINTER "mv %0, sp"

#else

#define SYST ((volatile uint32_t *)0xe000e010)

static void start_counter(void)
{
    SYST[1] = 0xffffff; /* it begins here again */
    SYST[2] = 0;
    SYST[0] = 5; /* on, at the processor's clock, no interrupt */
}

static uint32_t counter(void)
{
    return SYST[2];
}

static uint32_t instructions(uint32_t from, uint32_t to)
{
    return (uint32_t)((uint64_t)((from - to) & 0xffffff) * 1000 / CLOCK_MHZ);
}

#define COUNTDOWN "1: sub %0, #1\n cmp %0, #0\n bne 1b"
enum { COUNTDOWN_LENGTH = 3 };
#define READ_STACK_POINTER "mov %0, sp"

#endif

static void fail(const char *why)
{
    printf("%s\n", why);
    exit(1);
}

/* A loop whose instructions are known, within a hundredth. */
static void check_counter(void)
{
    const uint32_t loops = 10000, known = loops * COUNTDOWN_LENGTH;
    uint32_t left = loops, from = counter();

    __asm__ volatile(COUNTDOWN : "+l"(left) : : "cc");
    uint32_t counted = instructions(from, counter());
    if (counted < known - known / 100 || counted > known + known / 100)
        fail("the emulator does not count instructions as expected");
}

/* ---- The calls ---- */

static void nothing(void) {}

static void admit(void)
{
    answer = node_admit((const uint8_t *)records, table_len, verdict, NODE_VERDICT_WORDS);
}

static void start(void)
{
    answer = node_start((const uint8_t *)records, table_len, WAKING, node.state,
                        NODE_STATE_WORDS);
}

static void release(void)
{
    answer = node_release(node.state, NODE_STATE_WORDS, task, WORK);
}

static void step(void)
{
    answer = node_step(node.state, NODE_STATE_WORDS, node.tally, NODE_TALLY_WORDS);
}

static void energy(void)
{
    answer = node_energy(node.tally, NODE_TALLY_WORDS, 23000, 16, 9000);
}

/* ---- What they cost ---- */

/* A step's three kinds are in the order of NODE_RUN, NODE_SLOT and NODE_TAIL; waking ticks are
 * among the slot's. */
enum { ADMIT, START, RELEASE, RUN, SLOT, TAIL, ENERGY, KINDS };
static uint32_t most[KINDS], deepest[KINDS], bare;

/* The timer is coarse, so a call is made many times, each from the saved node. */
static uint32_t repeated(void (*call)(void))
{
    uint32_t from = counter();
    for (int i = 0; i < REPEATS; i++) {
        node = saved;
        call();
    }
    return instructions(from, counter());
}

/* How far below this function's stack pointer a call writes. */
static uint32_t depth(void (*call)(void))
{
    const uint32_t paint = 0x5a17c0de;
    const int painted = 700;
    volatile uint32_t *top;

    node = saved;
    __asm__ volatile(READ_STACK_POINTER : "=r"(top));
    for (int i = 1; i <= painted; i++)
        top[-i] = paint;
    call();
    int lowest = painted;
    while (lowest > 0 && top[-lowest] == paint)
        lowest--;
    if (lowest == painted)
        fail("a call takes more stack than was painted");
    return 4 * (uint32_t)lowest;
}

/* Leaves the node as the call leaves it. */
static void measure(void (*call)(void), int kind)
{
    saved = node;
    uint32_t cost = (repeated(call) - bare) / REPEATS, stack = depth(call);

    if (node_number(answer) != 0)
        fail("a call was refused");
    if (kind == RUN)
        kind += (int)node_kind(answer);
    if (cost > most[kind])
        most[kind] = cost;
    if (stack > deepest[kind])
        deepest[kind] = stack;
}

/* Task i asks for a release from the tick 3 i on, as soon as it may have one. */
static void measure_ticks(uint32_t tasks)
{
    for (uint32_t tick = 0; tick < TICKS; tick++) {
        for (task = 1; task <= tasks; task++) {
            if (tick < 3 * task)
                continue;
            saved = node;
            release();
            node = saved;
            if (node_number(answer) == 0)
                measure(release, RELEASE);
        }
        measure(step, RUN);
    }
}

static void run(uint32_t tasks)
{
    uint32_t rounds = 0;

    table_len = (1 + tasks) * NODE_RECORD_BYTES;
    memset(&node, 0, sizeof node);
    memset(most, 0, sizeof most);
    memset(deepest, 0, sizeof deepest);
    for (uint32_t i = 0; i <= tasks; i++) {
        records[i][1] = i == 0 ? SLEEP : WORK;
        records[i][2] = i == 0 ? HARMONIZING : i * HARMONIZING;
    }
    saved = node;
    bare = repeated(nothing);
    measure(admit, ADMIT);
    measure(start, START);
    node.state[NODE_CLOCK_AT] = node.tally[NODE_TAIL] = LATE;
    measure_ticks(tasks);
    measure(energy, ENERGY);

    for (uint32_t i = 0; i < tasks; i++)
        rounds += verdict[2 * NODE_PLACES + i];
    printf("%" PRIu32 " %" PRIu32, tasks, rounds);
    for (int i = 0; i < KINDS; i++)
        printf(" %" PRIu32, most[i]);
    for (int i = 0; i < KINDS; i++)
        printf(" %" PRIu32, deepest[i]);
    printf("\n");
}

int main(void)
{
    start_counter();
    check_counter();
    run(1);
    run(4);
    run(16);
    return 0;
}
