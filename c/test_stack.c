/* How much stack the calls take. They are made on a stack of their own, filled beforehand: the lowest byte that has
** changed shows how deep any of them went. The sheets are those of both.h, one of the longest, types as deep as there may
** be, the most frames that fit a bench, and everything that differs in one byte from a sheet with calls. The last line is
** 'N passed, M failed'.
**
** scripts/test-c.sh finds the same bound in the instructions of the libraries, for every path through them.
*/
#define _XOPEN_SOURCE 600 /* for makecontext */
#include <ucontext.h>

#include "both.h"

#define FILL 0xC3

static unsigned char stack[8 * WN_STACK_MAX];
static ucontext_t here, there;

/* The call that is made there, and its answer */
static struct run asked;
static struct lent lent_there;
static uint64_t answered;

static void make_it(void)
{
    answered = made(&asked, lent_there);
}

static void on_own_stack(void)
{
    if (getcontext(&there) != 0)
        abort();
    there.uc_stack.ss_sp = stack;
    there.uc_stack.ss_size = sizeof stack;
    there.uc_link = &here;
    makecontext(&there, make_it, 0);
    if (swapcontext(&here, &there) != 0)
        abort();
}

/* The most that the calls since the last fill have taken, with the frames of those who made them. Volatile, since the
** compiler cannot see who wrote there.
*/
static size_t taken(void)
{
    const volatile unsigned char *at = stack;
    size_t i = 0;

    while (i < sizeof stack && at[i] == FILL)
        i++;
    return sizeof stack - i;
}

/* The call that is measured. `aside` makes it, on the other stack, for tests that know nothing of that. */
static machine *called;

static uint64_t aside(const uint8_t *sheet, size_t sheet_len, const uint32_t *reads, size_t reads_len, uint64_t fuel,
                      uint64_t *bench, size_t bench_len, uint32_t *report, size_t report_len, uint64_t *reply,
                      size_t reply_len)
{
    struct run run = {NULL, NULL, 0, NULL, 0, 0, 0, 0, 0};

    run.call = called;
    run.sheet_len = sheet_len;
    run.reads_len = reads_len;
    run.fuel = fuel;
    run.bench_len = bench_len;
    run.report_len = report_len;
    run.reply_len = reply_len;
    asked = run;
    lent_there.sheet = (uint8_t *)sheet;
    lent_there.reads = (uint32_t *)reads;
    lent_there.bench = bench;
    lent_there.report = report;
    lent_there.reply = reply;
    on_own_stack();
    return answered;
}

static uint64_t only_check(const uint8_t *sheet, size_t sheet_len, const uint32_t *reads, size_t reads_len,
                           uint64_t fuel, uint64_t *bench, size_t bench_len, uint32_t *report, size_t report_len,
                           uint64_t *reply, size_t reply_len)
{
    (void)reads, (void)reads_len, (void)fuel, (void)bench, (void)bench_len, (void)report, (void)report_len;
    return wn_check(sheet, sheet_len, reply, reply_len);
}

static uint64_t nothing(const uint8_t *sheet, size_t sheet_len, const uint32_t *reads, size_t reads_len, uint64_t fuel,
                        uint64_t *bench, size_t bench_len, uint32_t *report, size_t report_len, uint64_t *reply,
                        size_t reply_len)
{
    (void)sheet, (void)sheet_len, (void)reads, (void)reads_len, (void)fuel, (void)bench, (void)bench_len;
    (void)report, (void)report_len, (void)reply, (void)reply_len;
    return 0;
}

/* Sheets that are built, record after record */
static uint8_t built[WN_SHEET_MAX];
static size_t built_len;
static uint64_t bench[WN_MEMORY_MAX];

static void add(const char *bytes, size_t len)
{
    memcpy(built + built_len, bytes, len);
    built_len += len;
}

#define ADD(text) add(text, sizeof text - 1)

static void add_header(unsigned quals, unsigned procedures)
{
    ADD("HD\1\0\0\0");
    built[built_len - 2] = (uint8_t)quals;
    built[built_len - 1] = (uint8_t)procedures;
}

static void add_procedure(unsigned variables, unsigned instructions)
{
    ADD("PR\0\0\0\377\0\0");
    built[built_len - 4] = (uint8_t)variables;
    built[built_len - 2] = (uint8_t)(instructions % 256);
    built[built_len - 1] = (uint8_t)(instructions / 256);
}

static void add_calls(unsigned procedure, unsigned count)
{
    while (count-- > 0) {
        ADD("IN\20\377\377\377\0\0");
        built[built_len - 2] = (uint8_t)procedure;
    }
    ADD("IN\21\377\377\377\0\0");
}

static void add_array(unsigned element)
{
    ADD("QT\1\16\0\0");
    built[built_len - 1] = (uint8_t)element;
}

/* The sheet built is accepted, and the machine called stops as it should; check has nothing to stop. */
static void expect_built(const char *what, uint64_t number)
{
    uint64_t due = called == only_check ? WN_ACCEPTED : number;

    tally(aside(built, built_len, NULL, 0, 1000000, bench, WN_MEMORY_MAX, NULL, 0, NULL, 0) == due, what);
    built_len = 0;
}

/* 32,768 bytes: five procedures, each of which calls the next, and the last itself */
static void longest(void)
{
    unsigned i;

    add_header(1, 5);
    ADD("QT\0\0\0\377");
    add_procedure(1, 1000);
    ADD("VR\0\377");
    for (i = 1; i <= 4; i++) {
        add_calls(i, 999);
        add_procedure(0, i < 4 ? 1000 : 89);
    }
    add_calls(4, 88);
    tally(built_len == WN_SHEET_MAX, "the longest sheet has 32,768 bytes");
    expect_built("the longest sheet", WN_MEMORY_FULL);
}

/* Main calls itself until the bench is full. */
static void most_frames(void)
{
    add_header(0, 1);
    add_procedure(0, 2);
    add_calls(0, 1);
    expect_built("the most frames", WN_MEMORY_FULL);
}

/* The smallest loop, for a million steps */
static void long_run(void)
{
    add_header(1, 1);
    ADD("QT\0\0\0\377");
    add_procedure(1, 3);
    ADD("VR\0\377" "IN\1\0\377\377\0\0" "IN\5\0\377\377\0\0" "IN\21\377\377\377\0\0");
    expect_built("a million steps", WN_FUEL_SPENT);
}

/* Arrays of arrays, made in one variable and bound to another: 63 deep, of one type, and then 31 deep, of two types that
** share no record.
*/
static void deep_types(void)
{
    unsigned i;

    add_header(64, 1);
    ADD("QT\0\0\0\377");
    for (i = 1; i < 64; i++)
        add_array(i - 1);
    add_procedure(3, 4);
    ADD("VR\0\377" "VR\77\377" "VR\77\377");
    ADD("IN\1\0\377\377\1\0" "IN\11\1\0\377\0\0" "IN\6\2\1\377\0\0" "IN\21\377\377\377\0\0");
    expect_built("types 63 deep", WN_DONE);

    add_header(63, 1);
    ADD("QT\0\0\0\377");
    for (i = 1; i < 63; i++)
        add_array(i == 32 ? 0 : i - 1);
    add_procedure(3, 4);
    ADD("VR\0\377" "VR\37\377" "VR\76\377");
    ADD("IN\1\0\377\377\1\0" "IN\11\1\0\377\0\0" "IN\6\2\1\377\0\0" "IN\21\377\377\377\0\0");
    expect_built("two types 31 deep", WN_DONE);
}

/* Every value of every byte, and every length */
static void every_byte(void)
{
    uint8_t sheet[sizeof records];
    uint32_t report[8];
    uint64_t reply[WN_REPLY_WORDS];
    unsigned at, value;

    memcpy(sheet, records, sizeof sheet);
    for (at = 0; at < sizeof sheet; at++) {
        for (value = 0; value < 256; value++) {
            sheet[at] = (uint8_t)value;
            aside(sheet, sizeof sheet, three, 1, 100, bench, 40, report, 8, reply, WN_REPLY_WORDS);
        }
        sheet[at] = records[at];
        aside(sheet, at, three, 1, 100, bench, 40, report, 8, reply, WN_REPLY_WORDS);
    }
}

static size_t measure(const char *name, machine *call)
{
    size_t most;

    called = call;
    memset(stack, FILL, sizeof stack);
    if (call == wn_run || call == wn_watch)
        hold_of_both(aside);
    if (call != nothing) {
        longest();
        most_frames();
        long_run();
        deep_types();
    }
    every_byte();
    most = taken();
    printf("%s: %lu bytes of stack\n", name, (unsigned long)most);
    return most;
}

int main(void)
{
    size_t least;

    /* Once on the ordinary stack: the dynamic linker may bind what the libraries call. */
    wn_run(smallest, sizeof smallest, NULL, 0, 1, bench, 2, NULL, 0, NULL, 0);
    wn_watch(smallest, sizeof smallest, NULL, 0, 1, bench, 2, NULL, 0, NULL, 0);
    least = measure("a call of nothing", nothing);
    tally(least > 0 && least < 1024, "the callers' own frames are seen, and are small");
    tally(measure("wn_check", only_check) < WN_STACK_MAX, "wn_check takes no more stack than the header says");
    tally(measure("wn_run", wn_run) < WN_STACK_MAX, "wn_run takes no more stack than the header says");
    tally(measure("wn_watch", wn_watch) < WN_STACK_MAX, "wn_watch takes no more stack than the header says");
    return finish();
}
