/* How much stack each function of the library takes at most: stack
 *
 * Each is called on a thread whose stack was painted, on a book of 64 participants with filled files. Printed are the bytes from the caller's frame
 * to the lowest byte that was written; 256 means at most 256. The status is 1 if a thread can't be made. */
#define _XOPEN_SOURCE 700
#include "guarantee.h"
#include <pthread.h>
#include <stdio.h>

enum { SIZE = 1 << 20, PAINT = 0xa5, GAP = 256 };

static uint64_t book[GUARANTEE_WORDS];
static unsigned char stack[SIZE] __attribute__((aligned(4096)));
static const int64_t figures[16] = {1500000}, rates[5] = {126, -18, 4, -234, 0}, zeros[4] = {18633458, 39457632, 73289522, 95618724};
static const uint64_t marks[5] = {0};

static void fresh(void) { guarantee_fresh(book, GUARANTEE_WORDS, 366); }
/* The roles in turn, with a supplier's for the retired one. */
static void admit(void)
{
    for (uint64_t p = 0; p < 64; p++)
        guarantee_admit(book, GUARANTEE_WORDS, p, p % 6 == GUARANTEE_SELF_SUPPLIED ? GUARANTEE_SUPPLIER : p % 6);
}
static void lodge_cash(void) { for (uint64_t p = 0; p < 512; p += 2) guarantee_lodge_cash(book, GUARANTEE_WORDS, p / 8, p % 8, 1000); }
static void lodge_letter(void)
{
    for (uint64_t p = 1; p < 512; p += 2)
        guarantee_lodge_letter(book, GUARANTEE_WORDS, p / 8, p % 8, 1000, 366, (uint32_t)(400 + p));
}
static void release(void) { for (uint64_t p = 0; p < 64; p++) guarantee_release(book, GUARANTEE_WORDS, p, 0, 1); }
static void settle(void) { for (uint64_t p = 0; p < 64; p++) guarantee_settle(book, GUARANTEE_WORDS, p, 10, figures, 16); }
/* A part of five figures for each participant; the first is 2^24 cents, which calls. */
static void batch(void)
{
    static uint8_t file[4 + 64 * (8 + 42)] = {10, 0, 64};
    for (size_t p = 0; p < 64; p++) {
        size_t at = 516 + 42 * p;
        file[4 + 8 * p] = (uint8_t)at;
        file[5 + 8 * p] = (uint8_t)(at >> 8);
        file[8 + 8 * p] = 42;
        file[at] = (uint8_t)p;
        file[at + 1] = 5;
        file[at + 5] = 1;
    }
    guarantee_batch(book, GUARANTEE_WORDS, file, sizeof file);
}
static void advance(void) { guarantee_advance(book, GUARANTEE_WORDS, 612, 1000); }
static void annual_run(void) { for (uint64_t p = 0; p < 64; p++) guarantee_annual_run(book, GUARANTEE_WORDS, p); }
/* A larger month is settled before each, so that it calls. */
static void deletion(void)
{
    static const int64_t larger[5] = {20000000};
    for (uint64_t p = 0; p < 64; p++) {
        guarantee_settle(book, GUARANTEE_WORDS, p, 18, larger, 5);
        guarantee_delete(book, GUARANTEE_WORDS, p);
    }
}
static void statement(void) { for (uint64_t p = 0; p < 65; p++) guarantee_statement(book, GUARANTEE_WORDS, p); }
static void calls_made(void) { guarantee_calls_made(book, GUARANTEE_WORDS); }
static void today(void) { guarantee_today(book, GUARANTEE_WORDS); }
static void special(void) { guarantee_special(rates, 5, rates, 5, marks, 5, zeros, 4, zeros, 4, zeros, 4, zeros, 4); }

static const struct { const char *name; void (*calls)(void); } rows[] = {
    {"fresh", fresh}, {"admit", admit}, {"lodge_cash", lodge_cash}, {"lodge_letter", lodge_letter}, {"release", release}, {"settle", settle},
    {"batch", batch}, {"advance", advance}, {"annual_run", annual_run}, {"delete", deletion}, {"statement", statement}, {"calls_made", calls_made},
    {"today", today}, {"special", special},
};

static void (*chosen)(void);
static size_t taken;

/* Paints the stack below this function, calls, and looks how far down the paint is gone: what the calls took, and a little of this function. */
static void *run(void *unused)
{
    volatile unsigned char here = 0, *at;
    size_t top = (size_t)(&here - stack);
    for (at = stack; at < stack + top - GAP; at++)
        *at = PAINT;
    chosen();
    for (at = stack; at < stack + top - GAP && *at == PAINT; at++)
        ;
    taken = (size_t)(stack + top - at);
    return unused;
}

int main(void)
{
    pthread_attr_t attributes;
    pthread_t thread;
    size_t i;
    pthread_attr_init(&attributes);
    if (pthread_attr_setstack(&attributes, stack, SIZE) != 0)
        return 1;
    for (i = 0; i < sizeof rows / sizeof rows[0]; i++) {
        chosen = rows[i].calls;
        if (pthread_create(&thread, &attributes, run, NULL) != 0 || pthread_join(thread, NULL) != 0)
            return 1;
        printf("%s %zu\n", rows[i].name, taken);
    }
    return 0;
}
