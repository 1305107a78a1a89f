/* replay.c: makes the calls that calls.rs wrote to the file calls (its comment has the form), and
 * compares answers and buffers with the model's. It prints how many calls agreed, or the first that
 * differs and status 1. */
#include "node.h"

#include <inttypes.h>
#include <stdio.h>
#include <stdlib.h>
#include <string.h>

/* The table lies in a room of bytes, the other buffers in one of words. Around them lies a guard,
 * and all of a room is compared, so that a write beside a buffer is seen. */
enum { MOST_BYTES = 640, MOST_WORDS = 700, GUARD = 8, SHIFTS = 4 };
enum { BYTES = MOST_BYTES + 2 * GUARD + SHIFTS, WORDS = MOST_WORDS + 3 * GUARD + SHIFTS };

struct rooms {
    uint32_t words[WORDS];
    uint8_t bytes[BYTES];
};
static struct rooms lent, expected;

struct call {
    uint32_t kind, table_len, first_len, second_len, numbers[3];
};
static const char *const names[] = {"admit", "start", "release", "step", "energy"};

static FILE *file;

static void read_into(void *to, size_t bytes)
{
    if (bytes != 0 && fread(to, bytes, 1, file) != 1) {
        printf("the file of calls is too short\n");
        exit(2);
    }
}

static uint32_t read_word(void)
{
    uint32_t word;
    read_into(&word, sizeof word);
    return word;
}

static uint64_t make(const struct call *call, const uint8_t *table, uint32_t *first,
                     uint32_t *second)
{
    const uint32_t *numbers = call->numbers;

    switch (call->kind) {
    case 0:
        return node_admit(table, call->table_len, first, call->first_len);
    case 1:
        return node_start(table, call->table_len, numbers[0], first, call->first_len);
    case 2:
        return node_release(first, call->first_len, numbers[0], numbers[1]);
    case 3:
        return node_step(first, call->first_len, second, call->second_len);
    default:
        return node_energy(first, call->first_len, numbers[0], numbers[1], numbers[2]);
    }
}

static void differs(uint32_t turn, const struct call *call)
{
    printf("DIFFERENCE in call %" PRIu32 ", node_%s of %" PRIu32 " bytes, %" PRIu32 " and %" PRIu32
           " words, %" PRIu32 ", %" PRIu32 ", %" PRIu32 "\n",
           turn, names[call->kind], call->table_len, call->first_len, call->second_len,
           call->numbers[0], call->numbers[1], call->numbers[2]);
}

/* The two halves of an answer, since newlib does not print 64 bits by PRIx64. */
static void print_answer(const char *whose, uint64_t answer)
{
    printf("%s answers 0x%08" PRIx32 "%08" PRIx32 "\n", whose, (uint32_t)(answer >> 32),
           (uint32_t)answer);
}

/* One call of the file; is it as the model has it? Tables start at every address modulo 4. */
static int agrees(uint32_t turn)
{
    struct call call;
    read_into(&call, sizeof call);
    if (call.kind > 4 || call.table_len > MOST_BYTES || call.first_len > MOST_WORDS ||
        call.second_len > MOST_WORDS - call.first_len) {
        printf("call %" PRIu32 " of the file is none\n", turn);
        exit(2);
    }
    uint32_t table = GUARD + turn % SHIFTS, first = GUARD + turn / SHIFTS % SHIFTS;
    uint32_t second = first + call.first_len + GUARD;
    uint8_t filling[4];

    memset(&expected, (int)(turn % 251), sizeof expected);
    read_into(expected.bytes + table, call.table_len);
    read_into(filling, (4 - call.table_len % 4) % 4);
    read_into(expected.words + first, 4 * call.first_len);
    read_into(expected.words + second, 4 * call.second_len);
    lent = expected;
    uint64_t found = make(&call, lent.bytes + table, lent.words + first, lent.words + second);

    uint64_t wanted = read_word();
    wanted |= (uint64_t)read_word() << 32;
    for (uint32_t changes = read_word(); changes > 0; changes--) {
        uint32_t place = read_word(), becomes = read_word();
        place += place < call.first_len ? first : second - call.first_len;
        if (place < WORDS)
            expected.words[place] = becomes;
    }
    if (found == wanted && memcmp(&lent, &expected, sizeof lent) == 0)
        return 1;
    differs(turn, &call);
    print_answer("the library", found);
    print_answer("the model", wanted);
    for (uint32_t i = 0; i < WORDS; i++)
        if (lent.words[i] != expected.words[i])
            printf("word %" PRId32 " of the %s buffer is %" PRIu32 ", the model's %" PRIu32 "\n",
                   (int32_t)(i - (i < second ? first : second)), i < second ? "first" : "second",
                   lent.words[i], expected.words[i]);
    if (memcmp(lent.bytes, expected.bytes, BYTES) != 0)
        printf("the table or what lies beside it was written\n");
    return 0;
}

int main(void)
{
    file = fopen("calls", "rb");
    if (file == NULL) {
        printf("no file calls in this folder\n");
        return 2;
    }
    uint32_t calls = read_word();
    for (uint32_t turn = 0; turn < calls; turn++)
        if (!agrees(turn))
            return 1;
    printf("%" PRIu32 " calls, no difference\n", calls);
    return 0;
}
