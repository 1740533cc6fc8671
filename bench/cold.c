#define _GNU_SOURCE
#include "cold.h"
#include "timing.h"

#include <dlfcn.h>
#include <link.h>
#include <sched.h>
#include <stddef.h>
#include <stdio.h>
#include <stdlib.h>
#include <sys/mman.h>
#include <sys/resource.h>

#define LINE 64
#define PAGE 4096
#define OTHER_PAGES 4096
#define STACK_BELOW 32768 /* bytes below this program's frames: more than a call uses */

/* The return address is put in the place of the one that the processor has in mind, which leads to a loop that is never gone into. */
entry *unguessed_to;
__asm__(".text\n"
        ".globl unguessed\n"
        ".type unguessed, @function\n"
        "unguessed:\n"
        "    movq unguessed_to(%rip), %r11\n"
        "    callq 1f\n"
        "0:  pause\n"
        "    lfence\n"
        "    jmp 0b\n"
        "1:  movq %r11, (%rsp)\n"
        "    retq\n"
        ".size unguessed, .-unguessed\n");

static double by_nanosecond, reading_counter;

int stay_on_one_processor(void)
{
    cpu_set_t set;
    int processor = sched_getcpu();
    CPU_ZERO(&set);
    if (processor < 0)
        return 0;
    CPU_SET((size_t)processor, &set);
    return sched_setaffinity(0, sizeof set, &set) == 0;
}

long switches(void)
{
    struct rusage usage;
    getrusage(RUSAGE_THREAD, &usage);
    return usage.ru_nvcsw + usage.ru_nivcsw;
}

void start_counter(void)
{
    double began = now();
    uint64_t from = counter_before(), least = UINT64_MAX;
    while (now() - began < 1e8) {
    }
    by_nanosecond = (double)(counter_after() - from) / (now() - began);
    for (int i = 0; i < 10000; i++) {
        uint64_t before = counter_before(), after = counter_after();
        least = after - before < least ? after - before : least;
    }
    reading_counter = (double)least;
}

double nanoseconds(uint64_t before, uint64_t after)
{
    double counts = (double)(after - before) - reading_counter;
    return counts > 0 ? counts / by_nanosecond : 0;
}

static void flush(const void *from, size_t length)
{
    const char *at = (const char *)((uintptr_t)from / LINE * LINE), *end = (const char *)from + length;
    for (; at < end; at += LINE)
        __asm__ volatile("clflush (%0)" ::"r"(at) : "memory");
}

/* The parts of the program in memory; they come first of all that is loaded. */
static int flush_program(struct dl_phdr_info *info, size_t size, void *data)
{
    (void)size;
    (void)data;
    for (int k = 0; k < info->dlpi_phnum; k++)
        if (info->dlpi_phdr[k].p_type == PT_LOAD)
            flush((const void *)(uintptr_t)(info->dlpi_addr + info->dlpi_phdr[k].p_vaddr), info->dlpi_phdr[k].p_memsz);
    return 1;
}

void make_cold(void)
{
    static const char *const names[] = {"memcpy", "memset", "memmove", "memcmp"};
    static const void *functions[4];
    static volatile uint8_t *others;
    volatile uint8_t here[STACK_BELOW];
    if (others == NULL) {
        for (int k = 0; k < 4; k++)
            functions[k] = dlsym(RTLD_DEFAULT, names[k]);
        void *pages = mmap(NULL, OTHER_PAGES * PAGE, PROT_READ | PROT_WRITE, MAP_PRIVATE | MAP_ANONYMOUS, -1, 0);
        if (pages == MAP_FAILED || functions[0] == NULL || functions[1] == NULL || functions[2] == NULL || functions[3] == NULL) {
            printf("the caches cannot be made cold\n");
            exit(1);
        }
        others = pages;
    }
    for (size_t page = 0; page < OTHER_PAGES; page++)
        others[page * PAGE + page % (PAGE / LINE) * LINE]++;
    here[0] = here[STACK_BELOW - 1] = 0;
    for (int k = 0; k < 4; k++)
        flush(functions[k], 2048);
    flush((const void *)(uintptr_t)here, STACK_BELOW);
    dl_iterate_phdr(flush_program, NULL);
}
