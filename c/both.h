/* What holds of wn_run and wn_watch alike: the sheets here are accepted, or are none.
*/
#ifndef BOTH_H
#define BOTH_H

#include "calls.h"

/* Takes n, and puts n, n - 1 and so on down to 1: a frame of 5 words, 5 + 4 n steps. */
static const uint8_t countdown[] = {
    'H', 'D', 1, 0, 1, 1,                   /*  0: one qualified type, one procedure */
    'Q', 'T', 0, 0, 0, 255,                 /*  6: 0  integer */
    'P', 'R', 0, 0, 3, 255, 8, 0,           /* 12: main: three variables, eight instructions */
    'V', 'R', 0, 255,                       /* 20: 0  n */
    'V', 'R', 0, 255,                       /* 24: 1  one */
    'V', 'R', 0, 255,                       /* 28: 2  zero */
    'I', 'N', 7, 0, 255, 255, 0, 0,         /* 32: 0  take n */
    'I', 'N', 1, 1, 255, 255, 1, 0,         /* 40: 1  one := 1 */
    'I', 'N', 1, 2, 255, 255, 0, 0,         /* 48: 2  zero := 0 */
    'I', 'N', 5, 0, 255, 255, 7, 0,         /* 56: 3  if n is zero go to 7 */
    'I', 'N', 8, 0, 255, 255, 0, 0,         /* 64: 4  put n */
    'I', 'N', 3, 0, 0, 1, 0, 0,             /* 72: 5  n := n - one */
    'I', 'N', 5, 2, 255, 255, 3, 0,         /* 80: 6  if zero is zero go to 3 */
    'I', 'N', 17, 255, 255, 255, 0, 0       /* 88: 7  return */
};

/* Puts 0 - 1, then fetches cell 0 of an array of no cells. */
static const uint8_t edges[] = {
    'H', 'D', 1, 0, 2, 1,                   /*  0: two qualified types, one procedure */
    'Q', 'T', 0, 0, 0, 255,                 /*  6: 0  integer */
    'Q', 'T', 1, 14, 0, 0,                  /* 12: 1  array[integer]{fetch,store,size} */
    'P', 'R', 0, 0, 4, 255, 7, 0,           /* 18: main: four variables, seven instructions */
    'V', 'R', 0, 255,                       /* 26: 0  zero */
    'V', 'R', 0, 255,                       /* 30: 1  one */
    'V', 'R', 0, 255,                       /* 34: 2  n */
    'V', 'R', 1, 255,                       /* 38: 3  all */
    'I', 'N', 1, 0, 255, 255, 0, 0,         /* 42: 0  zero := 0 */
    'I', 'N', 1, 1, 255, 255, 1, 0,         /* 50: 1  one := 1 */
    'I', 'N', 3, 2, 0, 1, 0, 0,             /* 58: 2  n := zero - one */
    'I', 'N', 8, 2, 255, 255, 0, 0,         /* 66: 3  put n */
    'I', 'N', 9, 3, 0, 255, 0, 0,           /* 74: 4  all <- new array of size zero */
    'I', 'N', 10, 2, 3, 0, 0, 0,            /* 82: 5  n <- all[zero] */
    'I', 'N', 17, 255, 255, 255, 0, 0       /* 90: 6  return */
};

/* Main has a record made and asks what its slot holds: frames of 4 words, a record of 2. */
static const uint8_t records[] = {
    'H', 'D', 1, 1, 3, 3,                                   /*   0: one type, three qualified types, three procedures */
    'T', 'Y', 1, 1, 0, 255, 255, 255, 255, 255, 255, 255,   /*   6: type 2, call: read; one slot, QT 0 */
    'Q', 'T', 0, 0, 0, 255,                                 /*  18: 0  integer */
    'Q', 'T', 2, 2, 0, 255,                                 /*  24: 1  call{read} */
    'Q', 'T', 2, 3, 0, 255,                                 /*  30: 2  call{open,read} */
    'P', 'R', 0, 0, 2, 255, 4, 0,                           /*  36: main: two variables, four instructions */
    'V', 'R', 1, 255,                                       /*  44: 0  one */
    'V', 'R', 0, 255,                                       /*  48: 1  n */
    'I', 'N', 16, 0, 255, 255, 1, 0,                        /*  52: 0  one <- procedure 1 */
    'I', 'N', 16, 1, 0, 255, 2, 0,                          /*  60: 1  n <- procedure 2 (one) */
    'I', 'N', 8, 1, 255, 255, 0, 0,                         /*  68: 2  put n */
    'I', 'N', 17, 255, 255, 255, 0, 0,                      /*  76: 3  return */
    'P', 'R', 2, 0, 2, 1, 4, 0,                             /*  84: of call: two variables, result call{read} */
    'V', 'R', 2, 255,                                       /*  92: 0  call */
    'V', 'R', 0, 255,                                       /*  96: 1  time */
    'I', 'N', 13, 0, 255, 255, 0, 0,                        /* 100: 0  call <- new record */
    'I', 'N', 1, 1, 255, 255, 7, 0,                         /* 108: 1  time := 7 */
    'I', 'N', 15, 0, 1, 255, 0, 0,                          /* 116: 2  slot 0 of call <- time */
    'I', 'N', 17, 0, 255, 255, 0, 0,                        /* 124: 3  return call */
    'P', 'R', 2, 1, 2, 0, 2, 0,                             /* 132: of call: one formal, result integer */
    'V', 'R', 2, 1,                                         /* 140: 0  call: needs call{read}, inside call{open,read} */
    'V', 'R', 0, 255,                                       /* 144: 1  time */
    'I', 'N', 14, 1, 0, 255, 0, 0,                          /* 148: 0  time <- slot 0 of call */
    'I', 'N', 17, 1, 255, 255, 0, 0                         /* 156: 1  return time */
};

/* Document 02, S-5: the same in edition 2, where main has the call under right 31 alone */
static const uint8_t wide_records[] = {
    'H', 'D', 2, 1, 3, 3,                                   /*   0: edition 2, one type, three qualified types, three procedures */
    'T', 'Y', 31, 1, 0, 255, 255, 255, 255, 255, 255, 255,  /*   6: type 2, call: 31 named rights; one slot, QT 0 */
    'Q', 'T', 0, 0, 0, 0, 0, 255,                           /*  18: 0  integer */
    'Q', 'T', 2, 0, 0, 0, 128, 255,                         /*  26: 1  call{right 31} */
    'Q', 'T', 2, 1, 0, 0, 128, 255,                         /*  34: 2  call{open,right 31} */
    'P', 'R', 0, 0, 2, 255, 4, 0,                           /*  42: main: two variables, four instructions */
    'V', 'R', 1, 255,                                       /*  50: 0  one */
    'V', 'R', 0, 255,                                       /*  54: 1  n */
    'I', 'N', 16, 0, 255, 255, 1, 0,                        /*  58: 0  one <- procedure 1 */
    'I', 'N', 16, 1, 0, 255, 2, 0,                          /*  66: 1  n <- procedure 2 (one) */
    'I', 'N', 8, 1, 255, 255, 0, 0,                         /*  74: 2  put n */
    'I', 'N', 17, 255, 255, 255, 0, 0,                      /*  82: 3  return */
    'P', 'R', 2, 0, 2, 1, 4, 0,                             /*  90: of call: two variables, result call{right 31} */
    'V', 'R', 2, 255,                                       /*  98: 0  call */
    'V', 'R', 0, 255,                                       /* 102: 1  time */
    'I', 'N', 13, 0, 255, 255, 0, 0,                        /* 106: 0  call <- new record */
    'I', 'N', 1, 1, 255, 255, 7, 0,                         /* 114: 1  time := 7 */
    'I', 'N', 15, 0, 1, 255, 0, 0,                          /* 122: 2  slot 0 of call <- time */
    'I', 'N', 17, 0, 255, 255, 0, 0,                        /* 130: 3  return call */
    'P', 'R', 2, 1, 2, 0, 2, 0,                             /* 138: of call: one formal, result integer */
    'V', 'R', 2, 1,                                         /* 146: 0  call: needs call{right 31}, inside call{open,right 31} */
    'V', 'R', 0, 255,                                       /* 150: 1  time */
    'I', 'N', 14, 1, 0, 255, 0, 0,                          /* 154: 0  time <- slot 0 of call */
    'I', 'N', 17, 1, 255, 255, 0, 0                         /* 162: 1  return time */
};

static const uint32_t three[1] = {3};
static const uint32_t from_three[3] = {3, 2, 1};
static const uint32_t seven[1] = {7};
static const uint32_t minus_one[1] = {UINT32_C(4294967295)};

/* A sheet with the word 3 to take, fuel for 100 steps, and buffers that hold more than the sheets here use */
static struct run ordinary(machine *call, const uint8_t *sheet, size_t len)
{
    struct run run = {NULL, NULL, 0, three, 1, 100, 40, 5, 6};

    run.call = call;
    run.sheet = sheet;
    run.sheet_len = len;
    return run;
}

static void small_sheets(machine *call)
{
    struct run run = with_bench(ordinary(call, smallest, sizeof smallest), 2);

    expect_stop("K9: fuel 1, bench 2", with_fuel(run, 1), WN_DONE, 1, 0, NULL, 0, 0);
    expect_stop("K10: fuel 0, bench 2", with_fuel(run, 0), WN_FUEL_SPENT, 0, 0, NULL, 0, 0);
    expect_stop("K11: fuel 0, bench 1", with_bench(with_fuel(run, 0), 1), WN_MEMORY_FULL, 0, 0, NULL, 0, 0);
    expect_stop("all the fuel there can be", with_fuel(run, UINT64_MAX), WN_DONE, 1, 0, NULL, 0, 0);
    expect_stop("65,536 words", with_bench(run, WN_MEMORY_MAX), WN_DONE, 1, 0, NULL, 0, 0);
    expect_refusal("65,537 words", with_bench(run, WN_MEMORY_MAX + 1), WN_BIG_MEMORY, 0);
    run.sheet_len = 21;
    expect_refusal("torn before big bench", with_bench(run, WN_MEMORY_MAX + 1), WN_TORN, 14);
}

static void loops(machine *call)
{
    struct run run = ordinary(call, countdown, sizeof countdown);
    uint8_t blank[sizeof countdown];

    expect_stop("a loop that puts 3, 2, 1", run, WN_DONE, 17, 3, from_three, 0, 7);
    expect_stop("in all the bench it needs", with_bench(run, 5), WN_DONE, 17, 3, from_three, 0, 7);
    expect_stop("in a word less", with_bench(run, 4), WN_MEMORY_FULL, 0, 0, NULL, 0, 0);
    expect_stop("with all the fuel it needs", with_fuel(run, 17), WN_DONE, 17, 3, from_three, 0, 7);
    expect_stop("with fuel for all but the return", with_fuel(run, 16), WN_FUEL_SPENT, 16, 3, from_three, 0, 7);
    expect_stop("with fuel for the first put", with_fuel(run, 5), WN_FUEL_SPENT, 5, 1, from_three, 0, 5);
    run.report_len = 3;
    expect_stop("a report of three words", run, WN_DONE, 17, 3, from_three, 0, 7);
    run.report_len = 2;
    expect_stop("a report of two", run, WN_REPORT_FULL, 12, 2, from_three, 0, 4);
    run.report_len = 0;
    expect_stop("a report of none, at NULL", run, WN_REPORT_FULL, 4, 0, NULL, 0, 4);
    run.reads_len = 0;
    expect_stop("no reads, at NULL", run, WN_READS_ENDED, 0, 0, NULL, 0, 0);

    memcpy(blank, countdown, sizeof blank);
    blank[32 + 2] = 8;
    expect_stop("a blank is put", ordinary(call, blank, sizeof blank), WN_BLANK, 0, 0, NULL, 0, 0);
}

static void values(machine *call)
{
    struct run run = ordinary(call, edges, sizeof edges);
    uint8_t store[sizeof edges];

    expect_stop("0 - 1; size 0, index 0", run, WN_PAST_END, 5, 1, minus_one, 0, 5);
    expect_stop("in all the bench it needs", with_bench(run, 7), WN_PAST_END, 5, 1, minus_one, 0, 5);
    expect_stop("no room for the array", with_bench(run, 6), WN_MEMORY_FULL, 4, 1, minus_one, 0, 4);

    memcpy(store, edges, sizeof store);
    memcpy(store + 82 + 2, "\013\003\000\002", 4); /* all[zero] <- n */
    expect_stop("a store there", ordinary(call, store, sizeof store), WN_PAST_END, 5, 1, minus_one, 0, 5);

    run = ordinary(call, records, sizeof records);
    expect_stop("a record's slot, by calls", run, WN_DONE, 10, 1, seven, 0, 3);
    expect_stop("in all the bench it needs", with_bench(run, 10), WN_DONE, 10, 1, seven, 0, 3);
    expect_stop("no room for the record", with_bench(run, 9), WN_MEMORY_FULL, 1, 0, NULL, 1, 0);
    expect_stop("no room for the frame", with_bench(run, 7), WN_MEMORY_FULL, 0, 0, NULL, 0, 0);
    expect_stop("fuel spent in a procedure called", with_fuel(run, 3), WN_FUEL_SPENT, 3, 0, NULL, 1, 2);
    run = ordinary(call, wide_records, sizeof wide_records);
    expect_stop("the same in edition 2", run, WN_DONE, 10, 1, seven, 0, 3);
}

/* The sheet `records` with one byte changed */
static void expect_changed(machine *call, const char *what, size_t at, uint8_t byte, uint64_t number, uint64_t place)
{
    uint8_t sheet[sizeof records];

    memcpy(sheet, records, sizeof sheet);
    sheet[at] = byte;
    expect_refusal(what, ordinary(call, sheet, sizeof sheet), number, place);
}

/* What is no sheet */
static void malformed(machine *call)
{
    static const uint8_t large[WN_SHEET_MAX + 1];

    expect_refusal("overlong", ordinary(call, large, sizeof large), WN_OVERLONG, 0);
    expect_refusal("torn", ordinary(call, records, sizeof records - 1), WN_TORN, 156);
    expect_refusal("no sheet, at NULL", ordinary(call, NULL, 0), WN_TORN, 0);
    expect_changed(call, "stray mark", 6, 'Q', WN_STRAY_MARK, 6);
    expect_changed(call, "edition 3", 2, 3, WN_BAD_EDITION, 0);
    expect_changed(call, "code 18", 54, 18, WN_OFF_SCALE, 52);
}

static void replies(machine *call)
{
    struct run run = ordinary(call, countdown, sizeof countdown), torn = ordinary(call, countdown, 95);
    size_t len;

    for (len = 0; len <= 6; len++) {
        run.reply_len = torn.reply_len = len;
        expect_stop("a reply of 0 to 6 words after a stop", run, WN_DONE, 17, 3, from_three, 0, 7);
        expect_refusal("a reply of 0 to 6 words after a refusal", torn, WN_TORN, 88);
    }
}

static void nothing_lent(machine *call)
{
    tally(call(NULL, 0, NULL, 0, 0, NULL, 0, NULL, 0, NULL, 0) == WN_TORN, "nothing at all");
    tally(call(smallest, sizeof smallest, NULL, 0, 1, NULL, 0, NULL, 0, NULL, 0) == WN_MEMORY_FULL, "a sheet alone");
    tally(call(countdown, sizeof countdown, three, 1, 9, NULL, 0, NULL, 0, NULL, 0) == WN_MEMORY_FULL,
          "a sheet and reads alone");
}

/* A bench that was never written: valgrind tells if an answer depends on what it held. */
static void unset_bench(machine *call)
{
    struct run run = with_bench(ordinary(call, records, sizeof records), 300);
    struct lent lent = lend(&run);
    uint64_t number;

    free(lent.bench);
    lent.bench = exact(run.bench_len, sizeof *lent.bench);
    number = made(&run, lent);
    tally(number == WN_DONE, "a bench that was never written");
    tally(bench_holds(lent.bench, run.bench_len, number), "it is all zero afterwards");
    tally(report_holds(lent.report, run.report_len, seven, 1), "and the report has the word");
    give_back(lent);
}

/* One bench for run after run, and a sheet at an odd address */
static void again(machine *call)
{
    struct run run = ordinary(call, records, sizeof records);
    struct lent lent = lend(&run);
    uint8_t *odd = exact(sizeof records + 1, 1), *sheet = lent.sheet;
    int i;

    memcpy(odd + 1, records, sizeof records);
    lent.sheet = odd + 1;
    for (i = 0; i < 3; i++) {
        tally(made(&run, lent) == WN_DONE && lent.reply[WN_STEPS] == 10, "the same bench again");
        tally(bench_holds(lent.bench, run.bench_len, WN_DONE), "and zero again");
    }
    lent.sheet = sheet;
    free(odd);
    give_back(lent);
}

static void hold_of_both(machine *call)
{
    small_sheets(call);
    loops(call);
    values(call);
    malformed(call);
    replies(call);
    nothing_lent(call);
    unset_bench(call);
    again(call);
}

#endif
