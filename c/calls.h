/* A call of wn_run or wn_watch, which have the same parameters: what it is lent, what it must answer, and what its
** buffers must hold afterwards. Every buffer is malloc'ed in its exact size, so that valgrind sees a byte too far.
*/
#ifndef CALLS_H
#define CALLS_H

#include <stdlib.h>
#include <string.h>

#include "harness.h"
#include "wennathig.h"

/* What stands in the words of a report before a call */
#define BEFORE_PUT UINT32_C(0x5A5A5A5A)

/* wn_run or wn_watch */
typedef uint64_t machine(const uint8_t *, size_t, const uint32_t *, size_t, uint64_t, uint64_t *, size_t, uint32_t *,
                         size_t, uint64_t *, size_t);

/* What is called, and what it is lent */
struct run {
    machine *call;
    const uint8_t *sheet;
    size_t sheet_len;
    const uint32_t *reads;
    size_t reads_len;
    uint64_t fuel;
    size_t bench_len, report_len, reply_len;
};

/* What it must answer, and the words that it must have put, reply[WN_WORDS] of them */
struct answer {
    uint64_t number, reply[WN_REPLY_WORDS];
    const uint32_t *put;
};

/* The buffers of a call; those of no bytes are NULL. */
struct lent {
    uint8_t *sheet;
    uint32_t *reads, *report;
    uint64_t *bench, *reply;
};

static void *exact(size_t count, size_t size)
{
    void *memory = count == 0 ? NULL : malloc(count * size);

    if (count != 0 && memory == NULL)
        abort();
    return memory;
}

static void *copy(const void *from, size_t count, size_t size)
{
    void *memory = exact(count, size);

    if (count != 0)
        memcpy(memory, from, count * size);
    return memory;
}

static uint64_t *words(size_t count)
{
    uint64_t *memory = exact(count, sizeof *memory);
    size_t i;

    for (i = 0; i < count; i++)
        memory[i] = BEFORE + i;
    return memory;
}

static struct lent lend(const struct run *run)
{
    struct lent lent;
    size_t i;

    lent.sheet = copy(run->sheet, run->sheet_len, 1);
    lent.reads = copy(run->reads, run->reads_len, sizeof *lent.reads);
    lent.bench = words(run->bench_len);
    lent.report = exact(run->report_len, sizeof *lent.report);
    for (i = 0; i < run->report_len; i++)
        lent.report[i] = BEFORE_PUT + (uint32_t)i;
    lent.reply = words(run->reply_len);
    return lent;
}

static void give_back(struct lent lent)
{
    free(lent.sheet);
    free(lent.reads);
    free(lent.bench);
    free(lent.report);
    free(lent.reply);
}

static uint64_t made(const struct run *run, struct lent lent)
{
    return run->call(lent.sheet, run->sheet_len, lent.reads, run->reads_len, run->fuel, lent.bench, run->bench_len,
                     lent.report, run->report_len, lent.reply, run->reply_len);
}

/* After a stop the bench is all zero, after a refusal as it was. */
static int bench_holds(const uint64_t *bench, size_t len, uint64_t number)
{
    int stopped = number >= WN_DONE && number <= WN_CARRIED_RIGHT;
    size_t i;

    for (i = 0; i < len; i++)
        if (bench[i] != (stopped ? 0 : BEFORE + i))
            return 0;
    return 1;
}

/* The words put, then the old ones */
static int report_holds(const uint32_t *report, size_t len, const uint32_t *put, size_t put_len)
{
    size_t i;

    for (i = 0; i < len; i++)
        if (report[i] != (i < put_len ? put[i] : BEFORE_PUT + (uint32_t)i))
            return 0;
    return 1;
}

static int reply_holds(const uint64_t *reply, size_t len, const uint64_t *due)
{
    size_t i;

    for (i = 0; i < len; i++)
        if (reply[i] != (i < WN_REPLY_WORDS ? due[i] : BEFORE + i))
            return 0;
    return 1;
}

static int same(const void *found, const void *before, size_t bytes)
{
    return bytes == 0 || memcmp(found, before, bytes) == 0;
}

static void expect(const char *what, struct run run, struct answer due)
{
    struct lent lent = lend(&run);
    uint64_t number = made(&run, lent);

    if (number != due.number)
        printf("expected %lu, answered %lu:\n", (unsigned long)due.number, (unsigned long)number);
    tally(number == due.number, what);
    tally(reply_holds(lent.reply, run.reply_len, due.reply), what);
    tally(bench_holds(lent.bench, run.bench_len, due.number), what);
    tally(report_holds(lent.report, run.report_len, due.put, (size_t)due.reply[WN_WORDS]), what);
    tally(same(lent.sheet, run.sheet, run.sheet_len), what);
    tally(same(lent.reads, run.reads, run.reads_len * sizeof *run.reads), what);
    give_back(lent);
}

static void expect_stop(const char *what, struct run run, uint64_t number, uint64_t steps, uint64_t put_len,
                        const uint32_t *put, uint64_t procedure, uint64_t instruction)
{
    struct answer due = {0, {0, 0, 0, 0, 0}, NULL};

    due.number = number;
    due.reply[WN_STEPS] = steps;
    due.reply[WN_WORDS] = put_len;
    due.reply[WN_PROCEDURE] = procedure;
    due.reply[WN_INSTRUCTION] = instruction;
    due.put = put;
    expect(what, run, due);
}

static void expect_refusal(const char *what, struct run run, uint64_t number, uint64_t place)
{
    struct answer due = {0, {0, 0, 0, 0, 0}, NULL};

    due.number = number;
    due.reply[WN_PLACE] = place;
    expect(what, run, due);
}

static struct run with_bench(struct run run, size_t bench_len)
{
    run.bench_len = bench_len;
    return run;
}

static struct run with_fuel(struct run run, uint64_t fuel)
{
    run.fuel = fuel;
    return run;
}

#endif
