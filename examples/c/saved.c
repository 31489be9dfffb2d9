/* A book saved and loaded: saved load FILE, or saved save FILE
 *
 * `save` writes a fresh book of 1 January 2020 with one supplier in it: to FILE.new first, which is renamed when it is on the disk, so that a file
 * that was there is lost by no fault. `load` reads a saved book and prints its day and, of each participant in it, how many calls were made; a file
 * that is none is refused with a message on standard error and the status 1. */
#define _XOPEN_SOURCE 700
#include "guarantee.h"
#include <inttypes.h>
#include <stdio.h>
#include <string.h>
#include <unistd.h>

static uint64_t book[GUARANTEE_WORDS];

/* Writes the words, each its least byte first, and forces them to the disk; whether all are there. */
static int put(FILE *file, const uint64_t *words)
{
    for (size_t i = 0; i < GUARANTEE_WORDS; i++)
        for (int shift = 0; shift < 64; shift += 8)
            if (putc((int)(words[i] >> shift & 255), file) == EOF)
                return 0;
    return fflush(file) == 0 && fsync(fileno(file)) == 0;
}

/* Saves the words in a file of that name: in a second one, which takes its place when it is whole. Says why not. */
static int save(const char *name, const uint64_t *words)
{
    char second[4096];
    if (snprintf(second, sizeof second, "%s.new", name) >= (int)sizeof second) {
        fputs("the file's name is too long\n", stderr);
        return 0;
    }
    FILE *file = fopen(second, "wb");
    int done = file != NULL && put(file, words);
    if (file != NULL && fclose(file) != 0)
        done = 0;
    if (done && rename(second, name) == 0)
        return 1;
    perror(name);
    if (file != NULL)
        remove(second);
    return 0;
}

/* Reads words, one more than a book has at most; how many there were, or 0 if not all bytes are words. */
static size_t get(FILE *file, uint64_t *words)
{
    size_t bytes = 0;
    int byte = 0;
    while (bytes < 8 * (GUARANTEE_WORDS + 1) && (byte = getc(file)) != EOF) {
        words[bytes / 8] |= (uint64_t)byte << 8 * (bytes % 8);
        bytes++;
    }
    return ferror(file) || bytes % 8 != 0 ? 0 : bytes / 8;
}

/* Loads a file's words and takes them if they are a book; says why not. */
static int load(const char *name, uint64_t *words)
{
    uint64_t read[GUARANTEE_WORDS + 1] = {0};
    FILE *file = fopen(name, "rb");
    if (file == NULL) {
        perror(name);
        return 0;
    }
    uint64_t found = guarantee_check(read, get(file, read));
    fclose(file);
    if (found == GUARANTEE_EARLIER_LAYOUT)
        fputs("the book was saved by an earlier version, with one count of calls for all: make its calls anew on a fresh book\n", stderr);
    else if (found != GUARANTEE_ACCEPTED)
        fputs("the file is no saved book\n", stderr);
    else
        memcpy(words, read, GUARANTEE_WORDS * sizeof *words);
    return found == GUARANTEE_ACCEPTED;
}

/* Prints the day, and each participant's count. */
static void show(void)
{
    printf("today %" PRIu64 "\n", guarantee_today(book, GUARANTEE_WORDS).day);
    for (uint64_t p = 0; p < 64; p++) {
        GuaranteeStatement statement = guarantee_statement(book, GUARANTEE_WORDS, p);
        if (statement.refusal == GUARANTEE_ACCEPTED)
            printf("%" PRIu64 " %" PRIu64 "\n", p, statement.calls_made);
    }
}

int main(int count, char **arguments)
{
    if (count == 3 && strcmp(arguments[1], "save") == 0) {
        guarantee_fresh(book, GUARANTEE_WORDS, 0);
        guarantee_admit(book, GUARANTEE_WORDS, 0, GUARANTEE_SUPPLIER);
        return save(arguments[2], book) ? 0 : 1;
    }
    if (count == 3 && strcmp(arguments[1], "load") == 0) {
        if (!load(arguments[2], book))
            return 1;
        show();
        return 0;
    }
    fputs("saved load FILE, or saved save FILE\n", stderr);
    return 2;
}
