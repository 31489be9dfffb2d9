/* Answers calls in the ledger's numeric form through the library: answers < CALLS
 *
 * One call a line, with the ledger's words and answers (docs/LEDGER.md); days, months and roles are numbers, and there is no `report`. Behind `#=`
 * a line may have the answer that it expects, up to a ` | `. The status is 0 if every such answer is met, 1 if one isn't, 2 for wrong usage
 * and for a line that is no call. */
#include "guarantee.h"
#include <inttypes.h>
#include <stdio.h>
#include <stdlib.h>
#include <string.h>

enum { LINE = 65536, ANSWER = 160, MANY = 32768 };

static uint64_t book[GUARANTEE_WORDS], begun[GUARANTEE_WORDS];
static char line[LINE], answer[ANSWER];
static char *rest;                                   /* what is left of the line */
static int wrong;                                    /* a word is missing or is no number */

/* The next word, or an empty one. */
static const char *word(void)
{
    char *found = strtok(rest, " \t\r\n");
    rest = NULL;
    return found == NULL ? "" : found;
}

/* A number, with a minus where that is allowed. One too large for its type counts as the type's largest, as in the ledger. */
static int64_t whole(void)
{
    const char *found = word();
    char *end;
    long long number = strtoll(found, &end, 10);
    wrong |= end == found || *end != '\0';
    return number;
}

static uint64_t natural(void)
{
    const char *found = word();
    char *end;
    unsigned long long number = strtoull(found, &end, 10);
    wrong |= end == found || *end != '\0' || *found == '-';
    return number;
}

static uint32_t number32(void)
{
    uint64_t number = natural();
    return number > UINT32_MAX ? UINT32_MAX : (uint32_t)number;
}

/* A list: its length and then its numbers, of which so many as there is room for are kept. */
static size_t list(int64_t *numbers)
{
    uint64_t count = natural(), i;
    for (i = 0; i < count && !wrong && i < MANY; i++)
        numbers[i] = whole();
    wrong |= count > MANY;
    return (size_t)count;
}

/* An answer that has no values. */
static void outcome(uint64_t refusal)
{
    if (refusal == GUARANTEE_ACCEPTED)
        strcpy(answer, "done");
    else
        sprintf(answer, "refused %" PRIu64, refusal);
}

/* `fresh`: a refused one leaves the ledger's book as it was, so it is begun beside it. */
static void fresh(void)
{
    uint64_t refusal = guarantee_fresh(begun, GUARANTEE_WORDS, number32());
    if (refusal == GUARANTEE_ACCEPTED)
        memcpy(book, begun, sizeof book);
    outcome(refusal);
}

static void lodge(void)
{
    uint64_t participant = natural(), position = natural(), amount;
    const char *kind = word();
    uint32_t first, last;
    if (strcmp(kind, "cash") == 0) {
        amount = natural();
        if (!wrong)
            outcome(guarantee_lodge_cash(book, GUARANTEE_WORDS, participant, position, amount));
        return;
    }
    wrong |= strcmp(kind, "letter") != 0;
    amount = natural();
    first = number32();
    last = number32();
    if (!wrong)
        outcome(guarantee_lodge_letter(book, GUARANTEE_WORDS, participant, position, amount, first, last));
}

static void settle(void)
{
    static const char *const kinds[] = {"", "called", "covered", "recorded"};
    static int64_t figures[MANY];
    uint64_t participant = natural();
    uint32_t month = number32();
    size_t count = 0;
    GuaranteeSettled s;
    const char *found;
    char *end;
    while (*(found = word()) != '\0' && count < MANY) {
        figures[count++] = strtoll(found, &end, 10);
        wrong |= *end != '\0';
    }
    if (wrong)
        return;
    s = guarantee_settle(book, GUARANTEE_WORDS, participant, month, figures, count);
    outcome(s.refusal);
    if (s.refusal == GUARANTEE_ACCEPTED)
        sprintf(answer, "%s %" PRId64, kinds[s.kind], s.total);
    if (s.kind == GUARANTEE_CALLED)
        sprintf(answer, "called %" PRId64 " %" PRIu64 " %" PRIu64, s.total, s.asked, s.last_free_day);
}

/* The value of a hexadecimal digit, 16 for another byte. */
static unsigned digit(char byte)
{
    static const char digits[] = "0123456789abcdef0123456789ABCDEF";
    const char *found = byte == '\0' ? NULL : strchr(digits, byte);
    return found == NULL ? 16 : (unsigned)(found - digits) % 16;
}

/* A batch's bytes: two hexadecimal digits for each; no word is no bytes. */
static void batch(void)
{
    static uint8_t file[LINE / 2];
    const char *found = word();
    size_t bytes = 0;
    GuaranteeBatch b;
    for (; !wrong && *found != '\0'; found += 2) {
        unsigned high = digit(found[0]), low = digit(found[1]);
        wrong |= high == 16 || low == 16;
        file[bytes++] = (uint8_t)(16 * high + low);
    }
    if (wrong)
        return;
    b = guarantee_batch(book, GUARANTEE_WORDS, file, bytes);
    if (b.refusal == GUARANTEE_ACCEPTED)
        sprintf(answer, "batch %" PRIu64, b.parts);
    else
        sprintf(answer, "refused %" PRIu64 " %" PRIu64, b.refusal, b.pair);
}

static void advance(void)
{
    uint32_t day = number32();
    uint64_t at_most = natural();
    GuaranteeAdvanced a = {0, 0};
    if (!wrong)
        a = guarantee_advance(book, GUARANTEE_WORDS, day, at_most);
    outcome(a.refusal);
    if (a.refusal == GUARANTEE_ACCEPTED)
        sprintf(answer, "opened %" PRIu64, a.opened);
}

static void annual(void)
{
    GuaranteeAnnual a = guarantee_annual_run(book, GUARANTEE_WORDS, natural());
    outcome(a.refusal);
    if (a.refusal == GUARANTEE_ACCEPTED)
        sprintf(answer, "annual %" PRIu64 " %" PRIu64, a.amount, a.months);
}

static void deletion(void)
{
    GuaranteeDeletion d = guarantee_delete(book, GUARANTEE_WORDS, natural());
    outcome(d.refusal);
    if (d.refusal == GUARANTEE_ACCEPTED)
        sprintf(answer, "deletion %" PRIu64 " %" PRIu64, d.amount, d.called);
}

static void statement(void)
{
    GuaranteeStatement s = guarantee_statement(book, GUARANTEE_WORDS, natural());
    outcome(s.refusal);
    if (s.refusal == GUARANTEE_ACCEPTED)
        sprintf(answer, "statement %" PRIu64 " %" PRIu64 " %" PRIu64 " %" PRIu64 " %" PRIu64 " %" PRIu64, s.firm, s.cover, s.shortfall,
                s.days_charged, s.accrued_mills, s.calls_made);
}

static void special(void)
{
    static int64_t lists[7][MANY];
    static uint64_t marks[MANY];
    size_t counts[7], i;
    GuaranteeSpecial s;
    for (i = 0; i < 7; i++)
        counts[i] = list(lists[i]);
    if (wrong)
        return;
    for (i = 0; i < counts[2]; i++)
        marks[i] = (uint64_t)lists[2][i];
    s = guarantee_special(lists[0], counts[0], lists[1], counts[1], marks, counts[2], lists[3], counts[3], lists[4], counts[4],
                          lists[5], counts[5], lists[6], counts[6]);
    outcome(s.refusal);
    if (s.refusal == GUARANTEE_ACCEPTED)
        sprintf(answer, "special %" PRIu64, s.cents);
}

/* Answers the call of this name with the words that are left. */
static void make(const char *name)
{
    uint64_t a, b, c;
    if (strcmp(name, "fresh") == 0)
        fresh();
    else if (strcmp(name, "admit") == 0) {
        a = natural(), b = natural();
        outcome(guarantee_admit(book, GUARANTEE_WORDS, a, b));
    } else if (strcmp(name, "lodge") == 0)
        lodge();
    else if (strcmp(name, "release") == 0) {
        a = natural(), b = natural(), c = natural();
        outcome(guarantee_release(book, GUARANTEE_WORDS, a, b, c));
    } else if (strcmp(name, "settle") == 0)
        settle();
    else if (strcmp(name, "batch") == 0)
        batch();
    else if (strcmp(name, "annual") == 0)
        annual();
    else if (strcmp(name, "delete") == 0)
        deletion();
    else if (strcmp(name, "advance") == 0)
        advance();
    else if (strcmp(name, "statement") == 0)
        statement();
    else if (strcmp(name, "calls") == 0)
        sprintf(answer, "calls %" PRIu64, guarantee_calls_made(book, GUARANTEE_WORDS).count);
    else if (strcmp(name, "special") == 0)
        special();
    else
        wrong = 1;
}

/* Ends a line before its comment; the answer that it expects, or NULL. */
static char *expected_of(char *text)
{
    char *comment = strchr(text, '#'), *why;
    if (comment == NULL)
        return NULL;
    *comment = '\0';
    if (strncmp(comment + 1, "= ", 2) != 0)
        return NULL;
    if ((why = strstr(comment + 3, " | ")) != NULL)
        *why = '\0';
    comment[3 + strcspn(comment + 3, "\r\n")] = '\0';
    return comment + 3;
}

int main(int count, char **arguments)
{
    unsigned long number = 0;
    int status = 0;
    if (count != 1) {
        fprintf(stderr, "usage: %s < CALLS\n", arguments[0]);
        return 2;
    }
    guarantee_fresh(book, GUARANTEE_WORDS, 0);
    while (fgets(line, LINE, stdin) != NULL) {
        const char *expected = expected_of(line), *name;
        number++;
        rest = line;
        if (*(name = word()) == '\0')
            continue;
        wrong = 0;
        make(name);
        if (wrong || *word() != '\0') {
            fprintf(stderr, "answers: line %lu is no call in numeric form\n", number);
            return 2;
        }
        puts(answer);
        if (expected != NULL && strcmp(answer, expected) != 0) {
            fprintf(stderr, "answers: line %lu expects %s\n", number, expected);
            status = 1;
        }
    }
    return status;
}
