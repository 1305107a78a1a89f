/* start.c: from reset to main on the emulated processors, and out again by semihosting. A fault
 * ends the program with status 3. node.ld lays it out. */
#include <stdint.h>
#include <stdlib.h>

extern uint32_t data_from[], data_begin[], data_end[], bss_begin[], bss_end[];
extern int main(void);
void begin(void);

/* RISC-V asks for an address that 4 divides. */
__attribute__((aligned(4))) static void fault(void)
{
    _Exit(3);
}

#ifdef __riscv

/* The entry comes first in flash. tp leads to what the C library keeps by thread. */
__asm__(".pushsection .start, \"ax\"\n"
        ".global start\n"
        "start:\n"
        ".option push\n"
        ".option norelax\n"
        "    la gp, __global_pointer$\n"
        ".option pop\n"
        "    la sp, stack_end\n"
        "    la tp, thread_begin\n"
        "    j begin\n"
        ".popsection\n");

static void prepare(void)
{
    __asm__ volatile(".option push\n"
                     ".option arch, +zicsr\n"
                     "csrw mtvec, %0\n"
                     ".option pop" ::"r"(fault));
}

#else

extern uint32_t stack_end[];
extern void initialise_monitor_handles(void);

/* An ARM processor's table: its stack, the entry, then the exceptions up to the faults. */
__attribute__((section(".start"), used)) static const struct {
    uint32_t *stack;
    void (*entries[6])(void);
} vectors = {stack_end, {begin, fault, fault, fault, fault, fault}};

static void prepare(void)
{
    initialise_monitor_handles();
}

#endif

void begin(void)
{
    const uint32_t *from = data_from;
    for (uint32_t *to = data_begin; to < data_end; to++)
        *to = *from++;
    for (uint32_t *to = bss_begin; to < bss_end; to++)
        *to = 0;
    prepare();
    exit(main());
}
