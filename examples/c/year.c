/* The worked year of examples/year.journal as C calls: year
 *
 * Each call has the answer that it expects beside it. The answers are printed in the ledger's form. The status is 0 if all are as expected, 1 if
 * one differs, 2 for wrong usage. */
#include "guarantee.h"
#include <inttypes.h>
#include <stdarg.h>
#include <stdio.h>
#include <string.h>

static uint64_t book[GUARANTEE_WORDS];               /* the book: one array, which this program owns */
static int status;

/* Prints an answer, and compares it with the one expected. */
static void answer(const char *expected, const char *form, ...)
{
    char text[160];
    va_list values;
    va_start(values, form);
    vsnprintf(text, sizeof text, form, values);
    va_end(values);
    puts(text);
    if (strcmp(text, expected) != 0) {
        fprintf(stderr, "year: expected %s, not %s\n", expected, text);
        status = 1;
    }
}

/* Whether a call was accepted; prints the number of its refusal if not. */
static int accepted(uint64_t refusal, const char *expected)
{
    if (refusal != GUARANTEE_ACCEPTED)
        answer(expected, "refused %" PRIu64, refusal);
    return refusal == GUARANTEE_ACCEPTED;
}

/* A date as a day's number, from 2020 on. */
static uint32_t day(uint32_t year, uint32_t month, uint32_t date)
{
    static const uint32_t before[] = {0, 31, 59, 90, 120, 151, 181, 212, 243, 273, 304, 334};
    uint32_t years = year - 2020, leap_days = (years + 3) / 4 + (years % 4 == 0 && month > 2);
    return 365 * years + leap_days + before[month - 1] + date - 1;
}

/* A month's number. */
static uint32_t month(uint32_t year, uint32_t month)
{
    return 12 * (year - 2020) + month - 1;
}

static void fresh(uint32_t on, const char *expected)
{
    if (accepted(guarantee_fresh(book, GUARANTEE_WORDS, on), expected))
        answer(expected, "done");
}

static void admit(uint64_t participant, uint64_t role, const char *expected)
{
    if (accepted(guarantee_admit(book, GUARANTEE_WORDS, participant, role), expected))
        answer(expected, "done");
}

static void cash(uint64_t participant, uint64_t position, uint64_t amount, const char *expected)
{
    if (accepted(guarantee_lodge_cash(book, GUARANTEE_WORDS, participant, position, amount), expected))
        answer(expected, "done");
}

static void letter(uint64_t participant, uint64_t position, uint64_t amount, uint32_t first, uint32_t last, const char *expected)
{
    if (accepted(guarantee_lodge_letter(book, GUARANTEE_WORDS, participant, position, amount, first, last), expected))
        answer(expected, "done");
}

static void release(uint64_t participant, uint64_t position, uint64_t amount, const char *expected)
{
    if (accepted(guarantee_release(book, GUARANTEE_WORDS, participant, position, amount), expected))
        answer(expected, "done");
}

static void settle(uint64_t participant, uint32_t of, int64_t a, int64_t b, int64_t c, int64_t d, int64_t e, const char *expected)
{
    const int64_t figures[] = {a, b, c, d, e};
    GuaranteeSettled s = guarantee_settle(book, GUARANTEE_WORDS, participant, of, figures, 5);
    if (!accepted(s.refusal, expected))
        return;
    if (s.kind == GUARANTEE_CALLED)
        answer(expected, "called %" PRId64 " %" PRIu64 " %" PRIu64, s.total, s.asked, s.last_free_day);
    else
        answer(expected, "%s %" PRId64, s.kind == GUARANTEE_COVERED ? "covered" : "recorded", s.total);
}

static void annual(uint64_t participant, const char *expected)
{
    GuaranteeAnnual a = guarantee_annual_run(book, GUARANTEE_WORDS, participant);
    if (accepted(a.refusal, expected))
        answer(expected, "annual %" PRIu64 " %" PRIu64, a.amount, a.months);
}

static void advance(uint32_t until, uint64_t at_most, const char *expected)
{
    GuaranteeAdvanced a = guarantee_advance(book, GUARANTEE_WORDS, until, at_most);
    if (accepted(a.refusal, expected))
        answer(expected, "opened %" PRIu64, a.opened);
}

static void statement(uint64_t participant, const char *expected)
{
    GuaranteeStatement s = guarantee_statement(book, GUARANTEE_WORDS, participant);
    if (accepted(s.refusal, expected))
        answer(expected, "statement %" PRIu64 " %" PRIu64 " %" PRIu64 " %" PRIu64 " %" PRIu64 " %" PRIu64, s.firm, s.cover, s.shortfall,
               s.days_charged, s.accrued_mills, s.calls_made);
}

static void calls(const char *expected)
{
    GuaranteeCount c = guarantee_calls_made(book, GUARANTEE_WORDS);
    if (accepted(c.refusal, expected))
        answer(expected, "calls %" PRIu64, c.count);
}

/* January to March 2021. */
static void winter(void)
{
    fresh(day(2021, 1, 1), "done"); /* an empty book */
    admit(0, GUARANTEE_SUPPLIER, "done"); /* 20,000 euros are called, free until 11 January */
    admit(1, GUARANTEE_TRADER, "done"); /* 10,000 euros */
    admit(2, GUARANTEE_PRODUCER, "done"); /* no minimum, no call */
    calls("calls 2");

    /* The minimum is lodged: the supplier in cash, the trader by a bank's letter until the end of May. */
    advance(day(2021, 1, 4), 31, "opened 3"); /* at most 31 days are opened */
    cash(0, 0, 2000000, "done");
    letter(1, 0, 1000000, day(2021, 1, 4), day(2021, 5, 31), "done");
    statement(0, "statement 0 2000000 0 0 0 1"); /* nothing is firm yet; one call was made, that of the minimum */
    advance(day(2021, 1, 12), 31, "opened 8");
    statement(0, "statement 2000000 2000000 0 0 0 1"); /* the last free day is over: the call is firm */

    /* January: November is settled, two months back, and checked against what is deposited. The five figures: accounts Λ-A, Λ-B, Λ-Γ, Λ-Δ and Λ-ΣΤ. */
    advance(day(2021, 1, 20), 31, "opened 8");
    settle(0, month(2020, 11), 310000, -42000, 128000, 1390000, 64000, "covered 1850000");
    settle(1, month(2020, 11), 700000, 0, 0, 180000, 20000, "covered 900000");
    settle(2, month(2020, 11), 0, -500000, 30000, 110000, 10000, "covered -350000"); /* a credit */
    settle(0, month(2020, 10), 1700000, 0, 0, 0, 0, "recorded 1700000"); /* older than two months: no check, kept for the annual run */
    settle(0, month(2020, 12), 2300000, 0, 0, 0, 0, "refused 12"); /* December is not due before February */

    /* February: December. A total at least 20% above what is deposited calls for the difference. */
    advance(day(2021, 2, 15), 31, "opened 26");
    settle(0, month(2020, 12), 400000, 0, 150000, 1650000, 100000, "covered 2300000"); /* 15% above the 2,000,000 in cash: tolerated */
    settle(1, month(2020, 12), 950000, 0, 0, 270000, 30000, "called 1250000 250000 421"); /* 25% above; free until 25 February */
    settle(2, month(2020, 12), 90000, 0, 5000, 20000, 5000, "called 120000 120000 421"); /* nothing is deposited */
    advance(day(2021, 2, 20), 31, "opened 5");
    cash(1, 1, 250000, "done"); /* the trader pays in time, the producer doesn't */
    advance(day(2021, 2, 25), 31, "opened 5");
    statement(2, "statement 0 0 0 0 0 1"); /* the last free day of the call of 15 February */
    advance(day(2021, 2, 26), 31, "opened 1");
    statement(2, "statement 120000 0 120000 1 100000000 1"); /* 1 per mille is 1.20 euros, the least 1,000 */
    advance(day(2021, 2, 28), 31, "opened 2");
    cash(2, 0, 120000, "done");
    advance(day(2021, 3, 1), 31, "opened 1");
    statement(2, "statement 120000 120000 0 3 300000000 1"); /* 26 to 28 February; the day after is free */
}

/* March to June 2021. */
static void spring(void)
{
    /* March: January. A letter counts from its first day on. */
    advance(day(2021, 3, 15), 31, "opened 14");
    settle(0, month(2021, 1), 600000, 0, 250000, 2000000, 150000, "called 3000000 1000000 449"); /* half above; free until 25 March */
    settle(1, month(2021, 1), 800000, 0, 0, 200000, 40000, "covered 1040000");
    settle(2, month(2021, 1), 30000, -15000, 5000, 15000, 5000, "covered 40000");
    settle(2, month(2020, 12), 60000, 0, 5000, 12000, 3000, "recorded 80000"); /* December corrected: the total is replaced, the call stays */
    letter(0, 1, 1000000, day(2021, 3, 20), day(2021, 12, 31), "done");
    statement(0, "statement 2000000 2000000 0 0 0 2"); /* the letter begins on 20 March; two calls: the minimum's and today's */
    advance(day(2021, 3, 26), 31, "opened 11");
    statement(0, "statement 3000000 3000000 0 0 0 2");

    /* April and May: February and March. */
    advance(day(2021, 4, 15), 31, "opened 20");
    settle(0, month(2021, 2), 500000, 0, 200000, 1900000, 100000, "covered 2700000");
    settle(1, month(2021, 2), 1000000, 0, 0, 250000, 30000, "covered 1280000");
    settle(2, month(2021, 2), 50000, 0, 5000, 30000, 5000, "covered 90000");
    advance(day(2021, 5, 17), 40, "opened 32");
    settle(0, month(2021, 3), 650000, -50000, 250000, 2250000, 200000, "covered 3300000"); /* 10% above */
    settle(1, month(2021, 3), 900000, 0, 0, 200000, 20000, "covered 1120000");
    settle(2, month(2021, 3), 20000, 0, 5000, 20000, 5000, "covered 50000");

    /* The trader's letter lapses, and the new one begins two days late. */
    advance(day(2021, 5, 31), 31, "opened 14");
    statement(1, "statement 1250000 1250000 0 0 0 2"); /* the letter's last day */
    advance(day(2021, 6, 1), 31, "opened 1");
    statement(1, "statement 1250000 250000 1000000 1 100000000 2");
    letter(1, 0, 1000000, day(2021, 6, 3), day(2022, 5, 31), "done"); /* the position of the lapsed letter is empty */
    advance(day(2021, 6, 3), 31, "opened 2");
    statement(1, "statement 1250000 1250000 0 2 200000000 2"); /* 1 and 2 June */
}

/* June to September 2021. */
static void summer(void)
{
    /* June to August: April to June. */
    advance(day(2021, 6, 15), 31, "opened 12");
    settle(0, month(2021, 4), 700000, 0, 300000, 2400000, 200000, "called 3600000 600000 541"); /* 20% exactly; free until 25 June */
    settle(1, month(2021, 4), 880000, 0, 0, 200000, 20000, "covered 1100000");
    settle(2, month(2021, 4), 40000, 0, 5000, 20000, 5000, "covered 70000");
    cash(0, 2, 600000, "done");
    advance(day(2021, 7, 15), 31, "opened 30");
    settle(0, month(2021, 5), 650000, 0, 250000, 2350000, 150000, "covered 3400000");
    settle(1, month(2021, 5), 940000, 0, 0, 220000, 20000, "covered 1180000");
    settle(2, month(2021, 5), 30000, 0, 5000, 20000, 5000, "covered 60000");
    advance(day(2021, 8, 16), 40, "opened 32");
    settle(0, month(2021, 6), 650000, 0, 300000, 2400000, 150000, "covered 3500000");
    settle(1, month(2021, 6), 960000, 0, 0, 230000, 20000, "covered 1210000");
    settle(2, month(2021, 6), 50000, 0, 5000, 25000, 5000, "covered 85000");
    annual(0, "refused 14"); /* only from 1 to 10 September */

    /* September: the annual run, the largest month from July 2020 to June 2021. No monthly check is made. */
    advance(day(2021, 9, 6), 31, "opened 21");
    settle(0, month(2021, 7), 700000, 0, 300000, 7800000, 200000, "recorded 9000000");
    annual(0, "annual 3600000 9"); /* April; nine months are recorded */
    annual(1, "annual 1280000 8"); /* February */
    annual(2, "annual 90000 8"); /* February; December was corrected to 80,000 */
    release(2, 0, 30000, "refused 16"); /* 120,000 stay firm until 30 September */
    cash(1, 2, 30000, "done"); /* the trader lodges what is missing in time */
}

/* October 2021 to 1 January 2022. */
static void autumn(void)
{
    /* 1 October: the annual amounts take effect, lower ones too. */
    advance(day(2021, 10, 1), 31, "opened 25");
    statement(0, "statement 3600000 3600000 0 0 0 3"); /* the minimum, and the calls of March and June */
    statement(1, "statement 1280000 1280000 0 2 200000000 2");
    statement(2, "statement 90000 120000 0 3 300000000 1");
    release(2, 0, 30001, "refused 16"); /* one cent too much */
    release(2, 0, 30000, "done");

    /* The rest of the year. */
    advance(day(2021, 11, 15), 60, "opened 45");
    settle(0, month(2021, 9), 800000, 0, 400000, 3000000, 200000, "called 4400000 800000 694"); /* 22% above; free until 25 November */
    advance(day(2021, 11, 24), 31, "opened 9");
    cash(0, 3, 800000, "done");
    letter(0, 4, 1000000, day(2022, 1, 1), day(2022, 12, 31), "done"); /* follows the letter that ends on 31 December */
    advance(day(2022, 1, 1), 60, "opened 38");
    statement(0, "statement 4400000 4400000 0 0 0 4");
    calls("calls 7"); /* four, two and one */
}

int main(int count, char **arguments)
{
    if (count != 1) {
        fprintf(stderr, "usage: %s\n", arguments[0]);
        return 2;
    }
    winter();
    spring();
    summer();
    autumn();
    return status;
}
