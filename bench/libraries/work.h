/*
 * What the programs of this folder have in common: the page that each builds in its library, the clock, a sum over a page by which pages are
 * compared, and `main`. C99, and C++. A program defines the functions that are declared below, over one page of its own.
 *
 * A program is called with COUNT, the elements of the page, and STEPS, how many of the steps it does, in their order:
 *
 *     1 build    COUNT elements, each with an attribute `class` and a Text as its first child
 *     2 walk     each node is visited by links from node to node, from the root's element on
 *     3 name     the elements with the name `a` are asked for
 *     4 class    the elements with the class `odd` are asked for
 *     5 change   each tenth element, but for sections, becomes the last child of the section after its own, and its class is set
 *
 * For each step it prints its name, the microseconds of processor that it took, and what it found. With a third word, `check`, it prints the sum over
 * the page last, as it stands then.
 */
#ifndef WORK_H
#define WORK_H

#include <stdbool.h>
#include <stdint.h>
#include <stdio.h>
#include <stdlib.h>
#include <string.h>
#include <time.h>

enum { GROUP = 13, TENTH = 10, TEXT_SIZE = 12 };

#define CLASS_SET "changed"
#define NAME_SELECTOR "a"
#define CLASS_SELECTOR ".odd"
#define NAME_EXPRESSION "//a"
#define CLASS_EXPRESSION "//*[contains(concat(' ', normalize-space(@class), ' '), ' odd ')]"

/* Ends the program where a library did not do what it was asked. */
static inline void want(bool is_done, const char *what)
{
    if (!is_done) {
        fprintf(stderr, "not done: %s\n", what);
        exit(1);
    }
}

/* ---- the page: element 0 is the root's; a section is its child, and the twelve elements after a section are the section's */

static inline bool is_section(uint32_t number)
{
    return number % GROUP == 1;
}

static inline const char *name_of(uint32_t number)
{
    if (number == 0)
        return "main";
    return is_section(number) ? "section" : number % GROUP % 3 ? "p" : "a";
}

static inline const char *class_of(uint32_t number)
{
    return number % 2 ? "odd row" : "even row";
}

/* Writes the text of an element, `word 0001234`, and a byte 0. */
static inline void write_text(uint32_t number, char text[TEXT_SIZE + 1])
{
    memcpy(text, "word ", 5);
    for (int at = TEXT_SIZE - 1; at >= 5; at--, number /= 10)
        text[at] = (char)('0' + number % 10);
    text[TEXT_SIZE] = 0;
}

/* Whether the change moves an element, and the section to which it goes. */
static inline bool is_moved(uint32_t number)
{
    return number % TENTH == 0 && number != 0 && !is_section(number);
}

static inline uint32_t section_after(uint32_t number, uint32_t count)
{
    uint32_t own = number - (number + GROUP - 1) % GROUP;
    return own + GROUP < count ? own + GROUP : own;
}

/* ---- the clock: microseconds of processor since the program began. What else the machine does tells little in them. */

static inline double now(void)
{
    struct timespec time;
    clock_gettime(CLOCK_PROCESS_CPUTIME_ID, &time);
    return (double)time.tv_sec * 1e6 + (double)time.tv_nsec / 1e3;
}

/* What a walk found: nodes, those without children, and the sum of how deep each stands below the first. */
typedef struct walked {
    uint64_t nodes, leaves, depths;
} walked;

/* ---- the sum over a page: of each node in tree order its depth, an element's name and class, and a Text's data. */

typedef struct sum {
    uint64_t value;
} sum;

static inline void add_byte(sum *of, unsigned byte)
{
    of->value = (of->value ^ byte) * UINT64_C(1099511628211);
}

static inline void add_text(sum *of, const char *text)
{
    for (; *text; text++)
        add_byte(of, (unsigned char)*text);
    add_byte(of, 0);
}

static inline sum sum_from_nothing(void)
{
    sum of = {UINT64_C(14695981039346656037)};
    return of;
}

/* ---- what a program does in its library */

static void open_page(void);
static void build(uint32_t count, bool does_keep); /* with does_keep the program keeps its elements by number, for `change` */
static walked walk(void);
static uint64_t query_name(void);
static uint64_t query_class(void);
static uint64_t change(uint32_t count); /* gives how many were moved */
static sum sum_over(void);
static void close_page(void);

/* ---- what is printed */

static inline void print_step(const char *step, double begun, uint64_t found)
{
    printf("%s %.1f %llu\n", step, now() - begun, (unsigned long long)found);
}

static inline void print_walk(void)
{
    double begun = now();
    walked found = walk();
    printf("walk %.1f %llu,%llu,%llu\n", now() - begun, (unsigned long long)found.nodes, (unsigned long long)found.leaves,
           (unsigned long long)found.depths);
}

static inline void do_steps(uint32_t count, uint32_t steps)
{
    double begun = now();
    uint64_t found = count;
    if (steps >= 1) {
        build(count, steps >= 5);
        print_step("build", begun, found);
    }
    if (steps >= 2)
        print_walk();
    if (steps >= 3) {
        begun = now();
        found = query_name();
        print_step("name", begun, found);
    }
    if (steps >= 4) {
        begun = now();
        found = query_class();
        print_step("class", begun, found);
    }
    if (steps >= 5) {
        begun = now();
        found = change(count);
        print_step("change", begun, found);
    }
}

int main(int word_count, char **words)
{
    if (word_count < 3) {
        fprintf(stderr, "usage: %s COUNT STEPS [check]\n", words[0]);
        return 2;
    }
    open_page();
    do_steps((uint32_t)strtoul(words[1], NULL, 10), (uint32_t)strtoul(words[2], NULL, 10));
    if (word_count > 3)
        printf("page %016llx\n", (unsigned long long)sum_over().value);
    close_page();
    return 0;
}

#endif
