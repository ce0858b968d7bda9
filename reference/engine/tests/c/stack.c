/* Prints how many bytes of stack each call needs, on the files given: a call runs on a painted stack, and what is no longer
 * painted was used. Link with -z now, so that the first call of memcpy does not count the loader's work. */
#define _GNU_SOURCE
#include "crash_unit.h"
#include <stdio.h>
#include <string.h>
#include <ucontext.h>

#define PAINTED (1 << 20)
#define PAINT 0xA5

static unsigned char stack[PAINTED];
static ucontext_t here, there;

static uint8_t file[CRASH_LONGEST_FILE + 1];
static size_t length;
static uint64_t report[CRASH_LONGEST_REPORT];
static uint64_t site[CRASH_READ_NUMBERS];
static uint8_t record[CRASH_LONGEST_RECORD];
static uint64_t sites[CRASH_MOST_SITES * CRASH_SITE_NUMBERS + 1];
static size_t numbers;
static uint8_t written[CRASH_LONGEST_FILE];
static uint64_t line[CRASH_LINE_NUMBERS];
static uint64_t ends[CRASH_BRACKET_NUMBERS];
static uint64_t value, argument;

static void nothing(void) {}
static void project(void) { crash_project(file, length, report, CRASH_LONGEST_REPORT, &value); }
static void site_read(void)
{
    crash_site_read(file[0], file[1], file + CRASH_HEADER_BYTES, length - CRASH_HEADER_BYTES, site, CRASH_READ_NUMBERS);
}
static void site_write(void)
{
    crash_site_write(file[0], file[1], site, CRASH_SITE_NUMBERS, record, CRASH_LONGEST_RECORD, &value);
}
static void project_write(void)
{
    crash_project_write(file[0], file[1], 9999, 9999, sites, numbers, written, CRASH_LONGEST_FILE, &value);
}
static void line_of(void) { crash_line(file[0], file[1], 9999, 9999, site, CRASH_SITE_NUMBERS, line, CRASH_LINE_NUMBERS); }
static void power(void) { crash_power(argument, 79, 100, ends, CRASH_BRACKET_NUMBERS); }
static void logarithm(void) { crash_logarithm(argument, ends, CRASH_BRACKET_NUMBERS); }
static void exponential(void) { crash_exponential(argument, ends, CRASH_BRACKET_NUMBERS); }
static void negative(void) { crash_exponential_negative(argument, ends, CRASH_BRACKET_NUMBERS); }

/* The sites of the file, each read over the length that the one before left. */
static void gather(void)
{
    numbers = 0;
    for (size_t at = CRASH_HEADER_BYTES; at < length; at += sites[numbers]) {
        if (crash_site_read(file[0], file[1], file + at, length - at, sites + numbers, CRASH_READ_NUMBERS) != CRASH_OK)
            break;
        numbers += CRASH_SITE_NUMBERS;
    }
}

static size_t used(void (*call)(void))
{
    size_t left = 0;

    memset(stack, PAINT, PAINTED);
    getcontext(&there);
    there.uc_stack.ss_sp = stack;
    there.uc_stack.ss_size = PAINTED;
    there.uc_link = &here;
    makecontext(&there, call, 0);
    swapcontext(&here, &there);
    while (left < PAINTED && stack[left] == PAINT)
        left++;
    return PAINTED - left;
}

static void show(const char *name, void (*call)(void))
{
    printf("%s %zu\n", name, used(call) - used(nothing));
}

int main(int argc, char **argv)
{
    static const uint64_t arguments[] = {0, 1, 257, 19999, 20000, 20001, 139999, 140001};

    for (int i = 1; i < argc; i++) {
        FILE *input = fopen(argv[i], "rb");
        if (input == NULL)
            return 2;
        length = fread(file, 1, sizeof file, input);
        fclose(input);
        show("crash_project", project);
        show("crash_site_read", site_read);
        show("crash_site_write", site_write);
        gather();
        show("crash_project_write", project_write);
        if (value != length)
            return 1;
        show("crash_line", line_of);
    }
    for (size_t i = 0; i < sizeof arguments / sizeof arguments[0]; i++) {
        argument = arguments[i];
        show("crash_power", power);
        show("crash_logarithm", logarithm);
        show("crash_exponential", exponential);
        show("crash_exponential_negative", negative);
    }
    return 0;
}
