/* The whole calendar opened for 64 participants with eight letters each: opening
 *
 * Admits every participant on day 0, the roles in turn, lodges eight letters for each and opens days 1 to 29,219 by one advance. Printed are the
 * statements, a line each: participant, firm amount, cover, shortfall, days charged, accrued charge; without the count of calls, so that it is
 * made with an older library too (tools/opening). The microseconds of processor time that the advance took go to standard error. The status is 1
 * if a call is refused. */
#define _XOPEN_SOURCE 700
#include "guarantee.h"
#include <inttypes.h>
#include <stdio.h>
#include <time.h>

static uint64_t book[GUARANTEE_WORDS];

/* The first four letters are in force for the whole calendar, the others lapse one after the other. */
static uint32_t last_day(uint64_t p, uint64_t k) { return k < 4 ? 29219 : (uint32_t)(5000 * (k - 3) + 50 * p); }

/* The roles in turn, with a supplier's for the retired one. */
static uint64_t role(uint64_t p) { return p % 6 == GUARANTEE_SELF_SUPPLIED ? GUARANTEE_SUPPLIER : p % 6; }

/* Makes the book; whether a call was refused. */
static int begin(void)
{
    uint64_t refusal = guarantee_fresh(book, GUARANTEE_WORDS, 0);
    for (uint64_t p = 0; p < 64; p++) {
        refusal |= guarantee_admit(book, GUARANTEE_WORDS, p, role(p));
        for (uint64_t k = 0; k < 8; k++)
            refusal |= guarantee_lodge_letter(book, GUARANTEE_WORDS, p, k, 200000 + 10000 * p + k, 0, last_day(p, k));
    }
    return refusal != GUARANTEE_ACCEPTED;
}

static double microseconds(void)
{
    struct timespec used;
    clock_gettime(CLOCK_PROCESS_CPUTIME_ID, &used);
    return 1e6 * (double)used.tv_sec + (double)used.tv_nsec / 1e3;
}

int main(void)
{
    if (begin())
        return 1;
    double began = microseconds();
    GuaranteeAdvanced advanced = guarantee_advance(book, GUARANTEE_WORDS, 29219, 29219);
    double took = microseconds() - began;
    if (advanced.refusal != GUARANTEE_ACCEPTED || advanced.opened != 29219)
        return 1;
    for (uint64_t p = 0; p < 64; p++) {
        GuaranteeStatement s = guarantee_statement(book, GUARANTEE_WORDS, p);
        if (s.refusal != GUARANTEE_ACCEPTED)
            return 1;
        printf("%" PRIu64 " %" PRIu64 " %" PRIu64 " %" PRIu64 " %" PRIu64 " %" PRIu64 "\n", p, s.firm, s.cover, s.shortfall, s.days_charged, s.accrued_mills);
    }
    fprintf(stderr, "%.0f\n", took);
    return 0;
}
