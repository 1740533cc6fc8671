#include "lists.h"

#include <stdio.h>
#include <stdlib.h>
#include <string.h>

/* The level that the first line of a list has to tell: that of tests/level, which the scripts give to the compiler. */
#ifndef LEVEL
#error "-DLEVEL is missing, the level of tests/level as a string"
#endif

const char *const call_names[CALLS] = {"open", "quote", "offer", "quote_format", "offer_format", "advance"};

int gives(int call, int number)
{
    switch (call) {
    case OPEN: return number <= 2 || number == 14;
    case ADVANCE: return number <= 4 || number == 13;
    default: return number <= 12 || (by_format(call) && (number == 19 || number == 20));
    }
}

static const char *file_name;
static unsigned long line_number;

void list_fail(const char *text)
{
    printf("%s, line %lu: %s\n", file_name, line_number, text);
    exit(1);
}

int same_bytes(const struct bytes *a, const struct bytes *b)
{
    return a->length == b->length && memcmp(a->at, b->at, a->length) == 0;
}

void print_bytes(const char *name, const struct bytes *b)
{
    printf("    %s ", name);
    for (size_t i = 0; i < b->length; i++)
        printf("%02x", b->at[i]);
    printf("\n");
}

static int digit(char c)
{
    if (c >= '0' && c <= '9')
        return c - '0';
    if (c >= 'a' && c <= 'f')
        return c - 'a' + 10;
    list_fail("not a digit");
    return 0;
}

/* "-" stands for no bytes. */
static void read_bytes(struct bytes *b, const char *text)
{
    b->length = 0;
    if (text == NULL)
        list_fail("a word is missing");
    if (strcmp(text, "-") == 0)
        return;
    for (; text[0] != 0; text += 2)
        b->at[b->length++] = (uint8_t)(digit(text[0]) * 16 + digit(text[1]));
}

/* FNV-1a, 64 bits. */
static uint64_t hash(const struct bytes *b)
{
    uint64_t h = 0xcbf29ce484222325u;
    for (size_t i = 0; i < b->length; i++)
        h = (h ^ b->at[i]) * 0x100000001b3u;
    return h;
}

int as_told(const struct listed *listed, uint32_t number, const struct bytes *reply, const struct bytes *image)
{
    return number == listed->told_number && same_bytes(reply, &listed->told_reply) && hash(image) == listed->told_hash;
}

/* Numbers are written with their high digit first. */
static uint32_t read_number(const char *text)
{
    if (text == NULL)
        list_fail("a word is missing");
    return (uint32_t)strtoul(text, NULL, 16);
}

/* ARGUMENT REPLY-BEFORE -> NUMBER REPLY-AFTER HASH; advance has no argument, and an order by format FORMAT DUE-IN RANK SHEET. */
static void read_call(struct listed *l, char *rest)
{
    const char *word = strtok(rest, " ");
    l->argument.length = 0;
    l->stations = 0;
    if (by_format(l->call)) {
        l->format = read_number(word);
        l->due_in = read_number(strtok(NULL, " "));
        l->rank = (uint8_t)read_number(strtok(NULL, " "));
        word = strtok(NULL, " ");
    }
    if (l->call == OPEN)
        l->stations = read_number(word);
    else if (l->call != ADVANCE)
        read_bytes(&l->argument, word);
    read_bytes(&l->reply, l->call == ADVANCE ? word : strtok(NULL, " "));
    const char *arrow = strtok(NULL, " "), *number = strtok(NULL, " ");
    if (arrow == NULL || strcmp(arrow, "->") != 0 || number == NULL)
        list_fail("not of the form");
    l->told_number = (uint32_t)strtoul(number, NULL, 10);
    read_bytes(&l->told_reply, strtok(NULL, " "));
    const char *told_hash = strtok(NULL, " ");
    if (l->told_number >= NUMBERS || told_hash == NULL)
        list_fail("not of the form");
    l->told_hash = strtoull(told_hash, NULL, 16);
}

unsigned long each_call(const char *name, on_call *call)
{
    static char line[LIST_LINE];
    static struct listed listed;
    static struct bytes image;
    unsigned long images = 0;
    FILE *file = fopen(name, "r");
    file_name = name;
    line_number = 0;
    if (file == NULL)
        list_fail("cannot be read");
    while (fgets(line, LIST_LINE, file) != NULL) {
        line_number++;
        char *end = strchr(line, '\n'), *rest = strchr(line, ' ');
        if (end == NULL || rest == NULL)
            list_fail("not of the form");
        *end = 0;
        *rest++ = 0;
        listed.call = 0;
        while (listed.call < CALLS && strcmp(line, call_names[listed.call]) != 0)
            listed.call++;
        if (listed.call < CALLS) {
            read_call(&listed, rest);
            call(&listed, &image);
        } else if (strcmp(line, "image") == 0) {
            read_bytes(&image, rest);
            images++;
        } else if (strcmp(line, "level") != 0) {
            list_fail("a call that is not known here");
        } else if (strcmp(rest, LEVEL) != 0) {
            list_fail("of another level than tests/level has");
        }
    }
    fclose(file);
    return images;
}
