/* A host in C: checks, runs and watches a sheet on the numbers that standard input has, and prints what each call says.
**
**     wennathig-host SHEET [FUEL] <READS
**
** SHEET is a file, READS are decimal numbers of 32 bits with white space between them, FUEL is 1,000,000 if not given.
** Exit status: 0 accepted and done, 1 refused or stopped otherwise, 2 misuse, or the sheet or the reads cannot be read,
** 3 the answer cannot be written.
*/
#include <ctype.h>
#include <errno.h>
#include <stdio.h>
#include <string.h>

#include "wennathig.h"

#define READS_MAX 4096
#define REPORT_WORDS 4096

/* One more byte than a sheet may have, so that check sees that a file is overlong. */
static uint8_t sheet[WN_SHEET_MAX + 1];
static uint32_t reads[READS_MAX], report[REPORT_WORDS];
static uint64_t bench[WN_MEMORY_MAX], reply[WN_REPLY_WORDS];
static size_t sheet_len, reads_len;

/* wn_run and wn_watch are called alike. */
typedef uint64_t machine(const uint8_t *, size_t, const uint32_t *, size_t, uint64_t, uint64_t *, size_t, uint32_t *,
                         size_t, uint64_t *, size_t);

static const struct {
    const char *name;
    machine *call;
} machines[] = {
    {"run", wn_run},
    {"watch", wn_watch},
};

/* A name or a read may hold anything: only what is printable in ASCII is printed as it is. */
static void print_escaped(const char *text, size_t len)
{
    size_t i;

    for (i = 0; i < len; i++)
        fprintf(stderr, text[i] >= ' ' && text[i] <= '~' && text[i] != '\\' ? "%c" : "\\x%02x", (unsigned char)text[i]);
}

/* Says what errno says of a file. */
static void complain(const char *file)
{
    const char *reason = strerror(errno);

    fprintf(stderr, "wennathig-host: ");
    print_escaped(file, strlen(file));
    fprintf(stderr, ": %s\n", reason);
}

/* Gives 1, and what a text says, if it is a decimal number up to a limit. */
static int number(const char *text, size_t len, uint64_t limit, uint64_t *value)
{
    size_t i;

    *value = 0;
    for (i = 0; i < len; i++) {
        uint64_t digit = (uint64_t)(text[i] - '0');

        if (text[i] < '0' || text[i] > '9' || *value > (limit - digit) / 10)
            return 0;
        *value = *value * 10 + digit;
    }
    return len > 0;
}

static int load_sheet(const char *name)
{
    FILE *file = fopen(name, "rb");
    int good;

    if (file == NULL) {
        complain(name);
        return 0;
    }
    sheet_len = fread(sheet, 1, sizeof sheet, file);
    good = !ferror(file); /* a folder can be opened, and not be read */
    if (!good)
        complain(name);
    fclose(file);
    return good;
}

/* Reads what stands before the next white space, as much of it as there is room for. Gives its length, 0 at the end. */
static size_t next_read(char *text, size_t room)
{
    size_t len = 0;
    int c;

    do
        c = getchar();
    while (isspace(c));
    for (; c != EOF && !isspace(c); c = getchar()) {
        if (len < room)
            text[len] = (char)c;
        len++;
    }
    return len;
}

static void complain_of_read(const char *text, size_t len, size_t room)
{
    fprintf(stderr, "wennathig-host: standard input: read %lu is no number of 32 bits: ", (unsigned long)reads_len + 1);
    print_escaped(text, len < room ? len : room);
    fprintf(stderr, len > room ? "..\n" : "\n");
}

static int load_reads(void)
{
    char text[32];
    uint64_t value;
    size_t len;

    while ((len = next_read(text, sizeof text)) > 0) {
        if (len > sizeof text || !number(text, len, UINT32_MAX, &value)) {
            complain_of_read(text, len, sizeof text);
            return 0;
        }
        if (reads_len == READS_MAX) {
            fprintf(stderr, "wennathig-host: standard input: more than %d reads\n", READS_MAX);
            return 0;
        }
        reads[reads_len++] = (uint32_t)value;
    }
    if (ferror(stdin))
        complain("standard input");
    return !ferror(stdin);
}

static void print_answer(const char *name, uint64_t answer)
{
    int stopped = answer >= WN_DONE && answer <= WN_CARRIED_RIGHT; /* 20 and 21 are refusals again */
    size_t i;

    printf("%-6s %2lu %s", name, (unsigned long)answer, wn_word(answer));
    if (!stopped) {
        printf(", place %lu\n", (unsigned long)reply[WN_PLACE]);
        return;
    }
    printf(", %lu steps, %lu words put, procedure %lu, instruction %lu\nreport", (unsigned long)reply[WN_STEPS],
           (unsigned long)reply[WN_WORDS], (unsigned long)reply[WN_PROCEDURE], (unsigned long)reply[WN_INSTRUCTION]);
    for (i = 0; i < reply[WN_WORDS]; i++)
        printf(" %lu", (unsigned long)report[i]);
    printf("\n");
}

/* Makes the three calls. Gives 1 if the sheet is accepted and done. */
static int answer_all(uint64_t fuel)
{
    uint64_t answer = wn_check(sheet, sheet_len, reply, WN_REPLY_WORDS);
    int good = answer == WN_ACCEPTED;
    size_t i;

    print_answer("check", answer);
    for (i = 0; i < sizeof machines / sizeof *machines; i++) {
        answer = machines[i].call(sheet, sheet_len, reads, reads_len, fuel, bench, WN_MEMORY_MAX, report, REPORT_WORDS,
                                  reply, WN_REPLY_WORDS);
        good = good && answer == WN_DONE;
        print_answer(machines[i].name, answer);
    }
    return good;
}

/* What was printed may still wait in a buffer: it is written once the file is closed without an error. */
static int written(void)
{
    int good = !ferror(stdout);

    good = fclose(stdout) == 0 && good;
    if (!good)
        complain("standard output");
    return good;
}

int main(int argc, char **argv)
{
    uint64_t fuel = 1000000;
    int good;

    if (argc < 2 || argc > 3 || (argc == 3 && !number(argv[2], strlen(argv[2]), UINT64_MAX, &fuel))) {
        fprintf(stderr, "usage: wennathig-host SHEET [FUEL] <READS\n");
        return 2;
    }
    if (!load_sheet(argv[1]) || !load_reads())
        return 2;
    good = answer_all(fuel);
    if (!written())
        return 3;
    return !good;
}
