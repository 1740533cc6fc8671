/* plan_main TABLES MOST INPUT..: plan of the library (libprobe.a) beside the plain C of plan.c, as gcc and as clang compile it.
 *
 * First all three must print the same for each INPUT, and what the second simulator printed (the file beside it that ends in .out): the first difference ends
 * the program with status 1. Then they are timed as timing.h says, in nanoseconds for one plan of 32 tasks at 8 stations:
 *
 *   over task records   plan_probe_rounds, which plans a table over and over, each time on the records as the time before left them. It is Rattle code that
 *                       lends them to plan, since C cannot lend a slice of records. The C works on its records in place, too;
 *   text to text        plan_probe_text: all that the program does between reading and writing.
 *
 * The tables go to the file TABLES as well. The last line has the worst ratio, library time by the time of the faster C; the status is 1 if that is above
 * MOST. */
#include "contenders.h"
#include "layout.h"
#include "tables.h"

#include <stdio.h>
#include <stdlib.h>

size_t plan_probe_text(const uint8_t *input, size_t input_len, uint8_t *out);
uint32_t plan_probe_rounds(const uint8_t *input, size_t input_len, uint32_t rounds);

/* One byte more than an input may have is as good as any more. */
static size_t read_file(const char *name, uint8_t *bytes, size_t most)
{
    FILE *f = fopen(name, "rb");
    if (f == NULL) {
        printf("%s cannot be read\n", name);
        exit(1);
    }
    size_t length = fread(bytes, 1, most, f);
    fclose(f);
    return length;
}

static void compare(const char *name)
{
    static uint8_t input[MAX_INPUT + 1];
    uint8_t library[MAX_OUTPUT], gcc[MAX_OUTPUT], clang[MAX_OUTPUT], stored[MAX_OUTPUT];
    char out_name[4096];
    size_t length = read_file(name, input, sizeof input), stem = strlen(name) - strlen(".in");
    if (stem + sizeof ".out" > sizeof out_name) {
        printf("%s: too long a name\n", name);
        exit(1);
    }
    memcpy(out_name, name, stem);
    memcpy(out_name + stem, ".out", sizeof ".out");
    size_t a = plan_probe_text(input, length, library), b = gcc_plain_plan_text(input, length, gcc), c = clang_plain_plan_text(input, length, clang);
    size_t d = read_file(out_name, stored, sizeof stored);
    if (a != b || a != c || a != d || memcmp(library, gcc, a) != 0 || memcmp(library, clang, a) != 0 || memcmp(library, stored, a) != 0) {
        printf("%s: the library prints\n%.*sthe C by gcc\n%.*sthe C by clang\n%.*sthe second simulator\n%.*s", name, (int)a, library, (int)b, gcc, (int)c,
               clang, (int)d, stored);
        exit(1);
    }
}

/* A standing table to time on: its text, and how many plans a round has. */
struct subject {
    int rounds;
    uint8_t text[MAX_INPUT];
    size_t length;
};

/* 32 tasks at 8 stations. `kind` 0: every response repeats after the first step; 1: three short periods make most responses rise for many steps; 2: no base
 * is below its deadline; 3: the last cost of all is out of range. */
static void make_table(struct subject *s, int kind)
{
    char *text = (char *)s->text;
    size_t at = (size_t)sprintf(text, "8\n");
    for (unsigned i = 0; i < TASKS; i++) {
        unsigned period = kind == 1 && i < 3 ? 40 + i : MAX_PERIOD - 7 * i;
        unsigned deadline = kind == 2 ? 10 : kind == 1 && i < 3 ? 40 : 50000;
        at += (size_t)sprintf(text + at, "%u %u", period, deadline);
        for (unsigned k = 0; k < COSTS; k++) {
            unsigned cost = kind == 1 ? (i < 3 ? 11 : 1 + (5 * i + k) % 90) : 1 + (37 * i + 11 * k) % 150;
            at += (size_t)sprintf(text + at, " %u", kind == 3 && i == TASKS - 1 && k == COSTS - 1 ? MAX_COST + 1u : cost);
        }
        at += (size_t)sprintf(text + at, "\n");
    }
    s->length = at;
}

/* The C through pointers that the compiler does not see through, so that every plan is a call; nothing where the library and the memcpy would be. */
static uint32_t (*volatile c_plan[RUNNERS])(struct task *, size_t, uint32_t) = {[GCC] = gcc_plain_plan, [CLANG] = clang_plain_plan};
static size_t (*volatile texts[RUNNERS])(const uint8_t *, size_t, uint8_t *) = {plan_probe_text, gcc_plain_plan_text, clang_plain_plan_text};
static void *(*volatile copy)(void *, const void *, size_t) = memcpy;

#define COPIES 200
static double copies(void)
{
    static uint8_t from[IMAGE_SIZE], to[IMAGE_SIZE];
    double began = now();
    for (int i = 0; i < COPIES; i++)
        copy(to, from, IMAGE_SIZE);
    return (now() - began) / COPIES;
}

static double records(const void *subjects, int runner, int k)
{
    const struct subject *s = (const struct subject *)subjects + k;
    struct task tasks[TASKS];
    size_t count = 0;
    uint32_t n = 0;
    if (runner == MEMCPY)
        return copies();
    double began = now();
    if (runner == LIBRARY) {
        plan_probe_rounds(s->text, s->length, (uint32_t)s->rounds);
    } else {
        gcc_plain_read(s->text, s->length, tasks, &count, &n);
        for (int i = 0; i < s->rounds; i++)
            c_plan[runner](tasks, count, n);
    }
    return (now() - began) / s->rounds;
}

static double text(const void *subjects, int runner, int k)
{
    const struct subject *s = (const struct subject *)subjects + k;
    uint8_t out[MAX_OUTPUT];
    if (runner == MEMCPY)
        return copies();
    double began = now();
    for (int i = 0; i < s->rounds; i++)
        texts[runner](s->text, s->length, out);
    return (now() - began) / s->rounds;
}

#define DEPTHS 16
#define TRIES 40
#define KINDS 4

int main(int argc, char **argv)
{
    static struct subject subjects[KINDS] = {{.rounds = 50}, {.rounds = 4}, {.rounds = 200}, {.rounds = 200}};
    static char labels[KINDS][64] = {"on time, one step a task", "on time, many steps", "late, no step", "declined by 18"};
    double mean[KINDS][RUNNERS], worst = 0;
    if (argc < 4) {
        printf("usage: plan_main TABLES MOST INPUT..\n");
        return 2;
    }
    for (int i = 3; i < argc; i++)
        compare(argv[i]);
    printf("plan: the library, the C by gcc and by clang, and the second simulator print the same for %d inputs\n", argc - 3);
    write_tables_to(argv[1]);
    for (int k = 0; k < KINDS; k++)
        make_table(&subjects[k], k);
    take_times(mean, records, subjects, KINDS, DEPTHS, TRIES);
    worst = print_times("plan over task records, 32 tasks at 8 stations", "what happens", labels, mean, KINDS);
    take_times(mean, text, subjects, KINDS, DEPTHS, TRIES);
    double ratio = print_times("plan, text to text, 32 tasks at 8 stations", "what happens", labels, mean, KINDS);
    worst = ratio > worst ? ratio : worst;
    double most = atof(argv[2]);
    if (worst > most)
        printf("above %.2f\n", most);
    printf("plan: worst ratio %.2f\n", worst);
    return worst > most;
}
