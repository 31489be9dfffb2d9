/* The guarantee book of a transmission operator: its calls, its questions and the special guarantee, for C99 and C++.
 *
 * A book is GUARANTEE_WORDS words of 64 bits that the caller owns: 64 participants' files, and today. Each function takes the words' address
 * and how many they are. guarantee_fresh writes a book into words of any content. Every other function asks that words which are as many as a
 * book's are a book: guarantee_fresh and the calls wrote them and nothing else did, or guarantee_check said so of words that were loaded.
 * docs/EMBEDDING.md says how the library is linked, how words are saved and loaded, and what is proved.
 *
 * Units: amounts are cents; charges are mills, of which 1,000 make one cent; day 0 is 1 January 2020 and the last is 29,219 (31 December
 * 2099); month 0 is January 2020 and the last is 959. Participants are 0 to 63, a participant's positions 0 to 7, roles 0 to 5.
 *
 * Answers: a refusal is GUARANTEE_ACCEPTED (0) or one of the numbers below. After a refusal every word is as it was; guarantee_fresh is the
 * one exception. A value that has no meaning beside an answer is 0.
 *
 * The library allocates nothing and has no state of its own: calls on different books may run in different threads at the same time. On one
 * book, questions (`const uint64_t *words`) may run at the same time, a call (`uint64_t *words`) only alone.
 *
 * Lists, and the bytes of a batch, are lent for the time of the call and are not written. No pointer may be NULL, also that of an empty list, and
 * no list may overlap the words. */
#ifndef GUARANTEE_H
#define GUARANTEE_H

#include <stddef.h>
#include <stdint.h>

#ifdef __cplusplus
extern "C" {
#endif

/* How many words a book has. */
#define GUARANTEE_WORDS 6210

/* Why a call is refused. Where more than one cause holds, the first in the call's own order is answered; each function names its order. */
enum {
    GUARANTEE_ACCEPTED = 0,
    GUARANTEE_NO_PARTICIPANT = 1,     /* the participant is above 63 */
    GUARANTEE_NOT_ADMITTED = 2,       /* the participant isn't admitted */
    GUARANTEE_ADMITTED_ALREADY = 3,   /* the participant is admitted already */
    GUARANTEE_NO_ROLE = 4,            /* the role is above 5 */
    GUARANTEE_NO_POSITION = 5,        /* the position is above 7 */
    GUARANTEE_POSITION_FILLED = 6,    /* a lodging at a filled position */
    GUARANTEE_POSITION_EMPTY = 7,     /* a release at an empty position */
    GUARANTEE_AMOUNT = 8,             /* the lodged or released amount is outside 1 to 10^12 */
    GUARANTEE_LETTER_DAYS = 9,        /* a letter's first day is after its last, or its last is before today or above 29,219 */
    GUARANTEE_FIGURE_COUNT = 10,      /* there are fewer than 5 or more than 16 figures */
    GUARANTEE_OUT_OF_RANGE = 11,      /* a figure, rate, zero settlement or excess is out of its range, or a mark is above 1 */
    GUARANTEE_MONTH = 12,             /* the month isn't one of the fourteenth to the second before today's */
    GUARANTEE_FIFTH_CALL = 13,        /* the call would be a fifth open one */
    GUARANTEE_NOT_ANNUAL = 14,        /* an annual run is made from 1 to 10 September only */
    GUARANTEE_RELEASE_ABOVE_HELD = 15, /* more is released than is held, or a letter in part */
    GUARANTEE_TOO_LITTLE_COVER = 16,  /* the release would leave too little cover */
    GUARANTEE_DAY = 17,               /* the day is above 29,219, or before today */
    GUARANTEE_FEW_RATES = 18,         /* a list has fewer than three usable rates */
    GUARANTEE_LIST_LENGTHS = 19,      /* more than 64 rates, marks not as many as low rates, or the four lists unequal or above 16 */
    GUARANTEE_FILE_SHORT = 20,        /* a batch's file is too short for its pairs, or has none or more than 64 */
    GUARANTEE_PARTS_ORDER = 21,       /* a batch's parts don't follow one another from its pairs to the end of the file */
    GUARANTEE_PART_LENGTH = 22,       /* a part's length isn't that of its rows, or its participant has an earlier part */
    GUARANTEE_ROLE_RETIRED = 23,      /* the role, 1, is no longer registered */
    GUARANTEE_NO_DELETION = 24,       /* a deletion is made in August and September only, of each participant once */
    GUARANTEE_UNDER_DELETION = 25,    /* an annual run of a participant that is under deletion */
    GUARANTEE_NOT_A_BOOK = 100,       /* the words aren't GUARANTEE_WORDS many: none was read or written; guarantee_check: they are no book */
    GUARANTEE_EARLIER_LAYOUT = 101    /* the words are a book that an earlier version saved, of another layout: guarantee_check alone answers
                                       * it; none but the first was read */
};

/* Roles of a participant, and the minimum guarantee of each. */
enum {
    GUARANTEE_SUPPLIER = 0,           /* 20,000 euros */
    GUARANTEE_SELF_SUPPLIED = 1,      /* 20,000 euros; retired, no longer admitted */
    GUARANTEE_TRADER = 2,             /* 10,000 euros */
    GUARANTEE_PRODUCER = 3,           /* none, and so for the next two */
    GUARANTEE_RES_AGGREGATOR = 4,
    GUARANTEE_DEMAND_RESPONSE = 5
};

/* Kinds of an accepted settlement. */
enum {
    GUARANTEE_CALLED = 1,             /* checked, and more is called for */
    GUARANTEE_COVERED = 2,            /* checked, and nothing is called for */
    GUARANTEE_RECORDED = 3            /* no check was due */
};

/* What a settlement answers. */
typedef struct GuaranteeSettled {
    uint64_t refusal;
    uint64_t kind;
    int64_t total;                    /* the month's total: the sum of the figures */
    uint64_t asked;                   /* where called: what is asked beyond what is deposited */
    uint64_t last_free_day;           /* where called: the last day to lodge it without a charge */
} GuaranteeSettled;

/* What a batch answers. */
typedef struct GuaranteeBatch {
    uint64_t refusal;
    uint64_t parts;                   /* where accepted: how many parts the file has, each settled */
    uint64_t pair;                    /* where refused: the index of the pair that the refusal concerns, from 0 */
} GuaranteeBatch;

/* What an annual run answers: the next amount, and how many months were recorded. */
typedef struct GuaranteeAnnual {
    uint64_t refusal;
    uint64_t amount;
    uint64_t months;
} GuaranteeAnnual;

/* What a deletion answers: its amount, and 1 if it became a call, 0 if not. */
typedef struct GuaranteeDeletion {
    uint64_t refusal;
    uint64_t amount;
    uint64_t called;
} GuaranteeDeletion;

/* What an advance answers: how many days it opened. */
typedef struct GuaranteeAdvanced {
    uint64_t refusal;
    uint64_t opened;
} GuaranteeAdvanced;

/* A participant's statement. */
typedef struct GuaranteeStatement {
    uint64_t refusal;
    uint64_t firm;                    /* what must be covered now */
    uint64_t cover;                   /* cash, and letters whose days include today */
    uint64_t shortfall;               /* the firm amount less the cover, never below 0 */
    uint64_t days_charged;
    uint64_t accrued_mills;
    uint64_t calls_made;              /* how many calls for more were made to it, its admission's and its deletion's included, open or not */
} GuaranteeStatement;

/* The sum of the participants' counts of calls made. */
typedef struct GuaranteeCount {
    uint64_t refusal;
    uint64_t count;
} GuaranteeCount;

/* A day. */
typedef struct GuaranteeDay {
    uint64_t refusal;
    uint64_t day;
} GuaranteeDay;

/* A special guarantee. */
typedef struct GuaranteeSpecial {
    uint64_t refusal;
    uint64_t cents;
} GuaranteeSpecial;

/* ---- the registry officer */

/* Begins a book on a day, with no participants, in words of any content. Returns the refusal: 17 for a day above 29,219, and then the words
 * are the fresh book of day 0. Writes every word, but none where it returns 100. */
uint64_t guarantee_fresh(uint64_t *words, size_t length, uint32_t day);

/* Admits a participant with a role. The role's minimum, if it has one, is called at once: it becomes firm after today and ten more days. Role 1 is
 * retired; a book that was saved with such a participant keeps it. Returns the refusal (1, 3, 4, 23). Writes only if accepted. */
uint64_t guarantee_admit(uint64_t *words, size_t length, uint64_t participant, uint64_t role);

/* Places a participant under deletion, in August or September; nothing ends that status. Its amount is the largest total of the three latest
 * recorded months among the fourteenth to the second before today's, of fewer if fewer are recorded, and 0 if none is or that is negative. If it
 * exceeds the firm amount and every open call, it is called, whatever the cover: it is open today and ten more days, and then becomes firm if it is
 * higher. Where the day after these is 1 October and an annual run has set an amount, that amount is firm instead. No annual run is made of the
 * participant any more; an amount that one has set stays. Lodgings, releases and settlements go on as before. The order of refusals is 1, 2, 24, 13.
 * Writes only if accepted: refused with 13, the participant isn't under deletion. */
GuaranteeDeletion guarantee_delete(uint64_t *words, size_t length, uint64_t participant);

/* ---- the treasury officer */

/* Lodges cash at an empty position of a participant. It counts from now on. Returns the refusal (1, 2, 5, 6, 8). Writes only if accepted. */
uint64_t guarantee_lodge_cash(uint64_t *words, size_t length, uint64_t participant, uint64_t position, uint64_t amount);

/* Lodges a bank's letter at an empty position of a participant. It counts from its first to its last day, both included, and leaves its
 * position when the day after its last is opened. In a check it is deposited only if it is still in force on the eleventh day after that
 * (guarantee_settle). Returns the refusal (1, 2, 5, 6, 8, 9). Writes only if accepted. */
uint64_t guarantee_lodge_letter(uint64_t *words, size_t length, uint64_t participant, uint64_t position, uint64_t amount,
                                uint32_t first_day, uint32_t last_day);

/* Releases cash in part or whole, or a letter whole. The cover left today must be at least the firm amount, each open call and the next
 * amount. Returns the refusal (1, 2, 5, 7, 8, 15, 16). Writes only if accepted. */
uint64_t guarantee_release(uint64_t *words, size_t length, uint64_t participant, uint64_t position, uint64_t amount);

/* ---- the settlement engineer */

/* Settles a month of a participant by 5 to 16 figures, the manual's accounts in their order, each within plus or minus 10^12. Their sum is the
 * month's total and replaces an earlier one. The month two before today's is checked against what is deposited, except in September, and may
 * call for more. Deposited are cash, and letters that have begun and are still in force on the eleventh day after today. The order of refusals is
 * 1, 2, 12, 10, 11, 13. Writes only if accepted. */
GuaranteeSettled guarantee_settle(uint64_t *words, size_t length, uint64_t participant, uint32_t month, const int64_t *figures,
                                  size_t count);

/* Loads a batch: the file of one month for all participants, of which every part is settled, in pair order, or none. The file is, least byte first:
 *   the month (2 bytes) and the count n of parts (2 bytes, 1 to 64);
 *   n pairs, each the offset and the length of a part (4 bytes each), the offset counted from the start of the file;
 *   n parts, each a participant (1 byte), a count r of rows (1 byte) and r figures (8 bytes each, signed, two's complement): 2 + 8 * r bytes.
 * The first part begins at 4 + 8 * n, each next one where the one before it ended, and the last ends with the file. What the figures are and which
 * month is lawful is said of guarantee_settle.
 *
 * The order of refusals is 20, 21 of any pair, 22 of any pair, and then those of the settlements, pair by pair, each in the order of
 * guarantee_settle: 1, 2, 12, 10, 11, 13. `pair` is the index from 0 of the first pair of which the refusal holds: for 20 it is 0, for 21 where only
 * the end of the file is wrong n - 1, for a participant twice that of the later part. Writes only if accepted. */
GuaranteeBatch guarantee_batch(uint64_t *words, size_t length, const uint8_t *file, size_t bytes);

/* Runs the annual calculation of a participant, from 1 to 10 September: the largest total from July of the year before to this June, or the
 * role's minimum if that is larger, becomes the firm amount on 1 October. For a participant under deletion it is refused with 25. The
 * order of refusals is 1, 2, 14, 25. Writes only if accepted. */
GuaranteeAnnual guarantee_annual_run(uint64_t *words, size_t length, uint64_t participant);

/* Works out a special guarantee (the manual, section 7), of no book: the rates of the medium and of the low voltage in hundredths of a percent,
 * a mark for each low rate (1: first represented that semester, which skips it), and by semester the zero settlements and the repaid
 * excesses of both. Each list is an address and a length. The order of refusals is 19, 11, 18. Writes nothing. */
GuaranteeSpecial guarantee_special(const int64_t *medium, size_t medium_count, const int64_t *low, size_t low_count,
                                   const uint64_t *marks, size_t marks_count, const int64_t *zero_medium, size_t zero_medium_count,
                                   const int64_t *zero_low, size_t zero_low_count, const int64_t *excess_medium,
                                   size_t excess_medium_count, const int64_t *excess_low, size_t excess_low_count);

/* ---- the duty officer */

/* Opens the days after today in turn, until the given day or until so many days are opened. Opening a day ends letters and open calls, puts
 * annual amounts into effect on 1 October, and charges every participant that is short. Returns how many days were opened, or the refusal 17,
 * and then no word is written. */
GuaranteeAdvanced guarantee_advance(uint64_t *words, size_t length, uint32_t day, uint64_t at_most);

/* Today: the last day that was opened, or the day of the fresh book. */
GuaranteeDay guarantee_today(const uint64_t *words, size_t length);

/* Whether words are a book: GUARANTEE_ACCEPTED if they are, GUARANTEE_EARLIER_LAYOUT if they have the number and the first word of a book of the
 * layout before, 6,147 words that begin with 1, and GUARANTEE_NOT_A_BOOK for all others. It may be asked of words of any number and content; after
 * words were loaded from a file it is asked before anything else, with as many words as the file has. */
uint64_t guarantee_check(const uint64_t *words, size_t length);

/* How many calls for more were made, of all participants: the sum of the counts in their statements. It is never refused for a book. It is the
 * operator's: beside its own count it would tell a participant how many calls the others had. */
GuaranteeCount guarantee_calls_made(const uint64_t *words, size_t length);

/* ---- the accountant */

/* A participant's statement today, with the count of its own calls. The order of refusals is 1, 2. */
GuaranteeStatement guarantee_statement(const uint64_t *words, size_t length, uint64_t participant);


#ifdef __cplusplus
}
#endif

#endif
