/* A yardstick for bench/steps.py: the steps of one hart (plain_hart.h), with irq lines whose interrupts aren't enabled.
   plain IMAGE STEPS DEPTH MCTRCTL IRQS: an image of at most 4096 bytes from 80000000; MCTRCTL in hexadecimal; IRQS irq
   lines, one every 1,000 steps. */
#include <stdio.h>
#include <stdlib.h>
#include "plain_hart.h"

struct irq { uint64_t step; uint8_t cause; };

int main(int argc, char **argv) {
    static uint8_t bytes[4096];
    static struct irq irqs[1024];
    static struct hart hart;
    struct memory memory = {bytes, sizeof bytes};
    FILE *f = argc == 6 ? fopen(argv[1], "rb") : NULL;
    if (!f || !fread(bytes, 1, sizeof bytes, f)) return 2;
    uint64_t steps = strtoull(argv[2], NULL, 10), count = strtoull(argv[5], NULL, 10), place = 0;
    hart.core.pc = BASE;
    hart.unit.depth = strtoul(argv[3], NULL, 10);
    hart.unit.control = strtoull(argv[4], NULL, 16);
    if (count > 1024) return 2;
    for (uint64_t i = 0; i < count; i++) irqs[i] = (struct irq){1000 * i, 3};
    for (uint64_t n = 0; n < steps; n++) {
        uint64_t pending = 0;
        while (place < count && irqs[place].step == n) pending |= 1ULL << irqs[place++].cause;
        if (!step(&hart, &memory, pending)) return 8;
    }
    printf("%llx %llx\n", (unsigned long long)hart.core.pc, (unsigned long long)hart.unit.slots[0].source);
    return 0;
}
