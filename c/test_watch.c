/* wn_watch as a host calls it, in a program that also calls wn_check and wn_run from the other library: what holds of
** both machines, what they say of the same accepted sheet, and the stops of sheets that only wn_watch runs. The last
** line is 'N passed, M failed'.
*/
#include "both.h"

/* Main makes an array, has a call made, keeps it there with fewer rights, fetches it back and asks what its slot holds:
** 17 steps, and 15 words for frames of 7 and 4, the array and the record of 2 each. Each of its variants below differs
** from it in one byte.
*/
static const uint8_t guarded[] = {
    'H', 'D', 1, 1, 7, 3,                                   /*   0: one type, seven qualified types, three procedures */
    'T', 'Y', 2, 1, 0, 255, 255, 255, 255, 255, 255, 255,   /*   6: type 2, call: read, amend; one slot, QT 0 */
    'Q', 'T', 0, 0, 0, 255,                                 /*  18: 0  integer */
    'Q', 'T', 2, 2, 0, 255,                                 /*  24: 1  call{read} */
    'Q', 'T', 2, 6, 0, 255,                                 /*  30: 2  call{read,amend} */
    'Q', 'T', 2, 7, 0, 255,                                 /*  36: 3  call{open,read,amend} */
    'Q', 'T', 1, 14, 0, 1,                                  /*  42: 4  array[call{read}]{fetch,store,size} */
    'Q', 'T', 1, 8, 0, 1,                                   /*  48: 5  array[call{read}]{size} */
    'Q', 'T', 1, 14, 0, 2,                                  /*  54: 6  array[call{read,amend}]{fetch,store,size} */
    'P', 'R', 0, 0, 5, 255, 11, 0,                          /*  60: main: five variables, eleven instructions */
    'V', 'R', 0, 255,                                       /*  68: 0  n */
    'V', 'R', 4, 255,                                       /*  72: 1  all */
    'V', 'R', 4, 255,                                       /*  76: 2  some */
    'V', 'R', 2, 255,                                       /*  80: 3  one */
    'V', 'R', 1, 255,                                       /*  84: 4  other */
    'I', 'N', 1, 0, 255, 255, 1, 0,                         /*  88: 0  n := 1 */
    'I', 'N', 9, 1, 0, 255, 0, 0,                           /*  96: 1  all <- new array of size n */
    'I', 'N', 6, 2, 1, 255, 0, 0,                           /* 104: 2  some <- all */
    'I', 'N', 16, 3, 255, 255, 1, 0,                        /* 112: 3  one <- procedure 1 */
    'I', 'N', 1, 0, 255, 255, 0, 0,                         /* 120: 4  n := 0 */
    'I', 'N', 11, 1, 0, 3, 0, 0,                            /* 128: 5  all[n] <- one */
    'I', 'N', 10, 4, 2, 0, 0, 0,                            /* 136: 6  other <- some[n] */
    'I', 'N', 12, 0, 2, 255, 0, 0,                          /* 144: 7  n <- size of some */
    'I', 'N', 16, 0, 4, 255, 2, 0,                          /* 152: 8  n <- procedure 2 (other) */
    'I', 'N', 8, 0, 255, 255, 0, 0,                         /* 160: 9  put n */
    'I', 'N', 17, 255, 255, 255, 0, 0,                      /* 168: 10 return */
    'P', 'R', 2, 0, 2, 2, 4, 0,                             /* 176: of call: two variables, result call{read,amend} */
    'V', 'R', 3, 255,                                       /* 184: 0  call */
    'V', 'R', 0, 255,                                       /* 188: 1  time */
    'I', 'N', 13, 0, 255, 255, 0, 0,                        /* 192: 0  call <- new record */
    'I', 'N', 1, 1, 255, 255, 7, 0,                         /* 200: 1  time := 7 */
    'I', 'N', 15, 0, 1, 255, 0, 0,                          /* 208: 2  slot 0 of call <- time */
    'I', 'N', 17, 0, 255, 255, 0, 0,                        /* 216: 3  return call */
    'P', 'R', 2, 1, 2, 0, 2, 0,                             /* 224: of call: one formal, result integer */
    'V', 'R', 3, 1,                                         /* 232: 0  call: needs call{read}, inside all rights */
    'V', 'R', 0, 255,                                       /* 236: 1  time */
    'I', 'N', 14, 1, 0, 255, 0, 0,                          /* 240: 0  time <- slot 0 of call */
    'I', 'N', 17, 1, 255, 255, 0, 0                         /* 248: 1  return time */
};

/* A byte of the sheet changed: what wn_check and wn_run say of it, and the stop of wn_watch with steps and place. */
struct variant {
    const char *what;
    size_t at;
    uint8_t byte;
    uint64_t refusal, byte_refused, stop, steps, procedure, instruction;
};

/* A stop's tests in document 01's order: form, blanks and kinds of what is read, rights, then what is moved. */
static const struct variant variants[] = {
    {"a result kept of none", 229, 255, WN_WRONG_KIND, 152, WN_CARRIED_KIND, 12, 0, 8},
    {"a return without its value", 251, 255, WN_WRONG_KIND, 248, WN_CARRIED_KIND, 14, 2, 1},
    {"a slot of what is blank and no record", 244, 1, WN_WRONG_KIND, 240, WN_BLANK, 13, 2, 0},
    {"a record is put", 163, 3, WN_WRONG_KIND, 160, WN_CARRIED_KIND, 15, 0, 9},
    {"the size of an integer", 148, 0, WN_WRONG_KIND, 144, WN_CARRIED_KIND, 11, 0, 7},
    {"an index that is a record", 132, 3, WN_WRONG_KIND, 128, WN_CARRIED_KIND, 9, 0, 5},
    {"a slot put into an integer", 211, 1, WN_WRONG_KIND, 208, WN_CARRIED_KIND, 6, 1, 2},
    {"a new array for an integer variable", 99, 0, WN_WRONG_KIND, 96, WN_CARRIED_KIND, 1, 0, 1},
    {"fetch without the right", 78, 5, WN_MISSING_RIGHT, 136, WN_CARRIED_RIGHT, 10, 0, 6},
    {"store without the right", 45, 10, WN_MISSING_RIGHT, 128, WN_CARRIED_RIGHT, 9, 0, 5},
    {"size without the right", 45, 6, WN_MISSING_RIGHT, 144, WN_CARRIED_RIGHT, 11, 0, 7},
    {"a slot of what is not opened", 234, 1, WN_MISSING_RIGHT, 240, WN_CARRIED_RIGHT, 13, 2, 0},
    {"a slot put into what is not opened", 186, 2, WN_MISSING_RIGHT, 208, WN_CARRIED_RIGHT, 6, 1, 2},
    {"an integer for an array variable", 91, 1, WN_WRONG_KIND, 88, WN_CARRIED_KIND, 0, 0, 0},
    {"arrays of unequal elements, with store: K6", 78, 6, WN_WRONG_KIND, 104, WN_CARRIED_KIND, 2, 0, 2},
    {"a binding that would add rights", 74, 5, WN_MISSING_RIGHT, 104, WN_CARRIED_RIGHT, 2, 0, 2},
    {"a fetch that would add a right", 86, 2, WN_MISSING_RIGHT, 136, WN_CARRIED_RIGHT, 10, 0, 6},
    {"a record into an integer slot", 212, 0, WN_WRONG_KIND, 208, WN_CARRIED_KIND, 6, 1, 2},
    {"a new record for an integer variable", 186, 0, WN_WRONG_KIND, 192, WN_CARRIED_KIND, 4, 1, 0},
    {"an actual of another kind", 156, 1, WN_WRONG_KIND, 152, WN_CARRIED_KIND, 12, 0, 8},
    {"an actual that lacks a right", 235, 2, WN_MISSING_RIGHT, 152, WN_CARRIED_RIGHT, 12, 0, 8},
    {"an integer inside that needs a call", 234, 0, WN_FALSE_RAISE, 232, WN_CARRIED_KIND, 12, 0, 8},
    {"a result kept as another kind", 82, 0, WN_WRONG_KIND, 112, WN_CARRIED_KIND, 7, 1, 3},
    {"a result kept as open", 82, 3, WN_OPEN_EXPOSED, 80, WN_CARRIED_RIGHT, 7, 1, 3},
};

/* wn_check and wn_run refuse the sheet, wn_watch runs it to its stop. */
static void expect_variant(const struct variant *variant)
{
    uint8_t sheet[sizeof guarded];
    uint64_t place = BEFORE;

    memcpy(sheet, guarded, sizeof sheet);
    sheet[variant->at] = variant->byte;
    tally(wn_check(sheet, sizeof sheet, &place, 1) == variant->refusal, variant->what);
    tally(place == variant->byte_refused, variant->what);
    expect_refusal(variant->what, ordinary(wn_run, sheet, sizeof sheet), variant->refusal, variant->byte_refused);
    expect_stop(variant->what, ordinary(wn_watch, sheet, sizeof sheet), variant->stop, variant->steps, 0, NULL,
                variant->procedure, variant->instruction);
}

static void refused_sheets(void)
{
    size_t i;

    for (i = 0; i < sizeof variants / sizeof *variants; i++)
        expect_variant(&variants[i]);
}

/* Open let out through a result is refused by wn_check; watched, nobody uses it and the run is done. */
static void refused_and_done(void)
{
    uint8_t sheet[sizeof guarded];
    struct run run = ordinary(wn_watch, sheet, sizeof sheet);

    memcpy(sheet, guarded, sizeof sheet);
    sheet[181] = 3;
    expect_stop("a refused sheet that is done", run, WN_DONE, 17, 1, seven, 0, 10);
    expect_stop("fuel for all but the return", with_fuel(run, 16), WN_FUEL_SPENT, 16, 1, seven, 0, 10);
    expect_stop("in all the bench it needs", with_bench(run, 15), WN_DONE, 17, 1, seven, 0, 10);
    expect_stop("no room for the record", with_bench(run, 14), WN_MEMORY_FULL, 4, 0, NULL, 1, 0);
    expect_refusal("65,537 words", with_bench(run, WN_MEMORY_MAX + 1), WN_BIG_MEMORY, 0);
    run.call = wn_run;
    expect_refusal("the same, run", with_bench(run, WN_MEMORY_MAX + 1), WN_OPEN_EXPOSED, 176);
}

/* The bench's end comes before the kind of a new record, and after that of a new array's variable. */
static void full_bench(void)
{
    uint8_t sheet[sizeof guarded];
    struct run run = ordinary(wn_watch, sheet, sizeof sheet);

    memcpy(sheet, guarded, sizeof sheet);
    sheet[186] = 0;
    expect_stop("17 before 18 at a new record", with_bench(run, 14), WN_MEMORY_FULL, 4, 0, NULL, 1, 0);
    memcpy(sheet, guarded, sizeof sheet);
    sheet[99] = 0;
    expect_stop("18 before 17 at a new array", with_bench(run, 8), WN_CARRIED_KIND, 1, 0, NULL, 0, 1);
}

/* Both machines, with buffers of their own, in the same words */
static void expect_same(struct run run)
{
    struct lent by_run, by_watch;
    uint64_t numbers[2];

    run.call = wn_run;
    by_run = lend(&run);
    numbers[0] = made(&run, by_run);
    run.call = wn_watch;
    by_watch = lend(&run);
    numbers[1] = made(&run, by_watch);
    tally(numbers[0] == numbers[1], "the same number");
    tally(same(by_run.bench, by_watch.bench, run.bench_len * sizeof *by_run.bench), "the same bench");
    tally(same(by_run.report, by_watch.report, run.report_len * sizeof *by_run.report), "the same report");
    tally(same(by_run.reply, by_watch.reply, run.reply_len * sizeof *by_run.reply), "the same reply");
    give_back(by_run);
    give_back(by_watch);
}

/* An accepted sheet, with every fuel and every bench up to more than it needs */
static void accepted_sheets(void)
{
    struct run run = ordinary(wn_watch, guarded, sizeof guarded);
    size_t words;
    uint64_t fuel;

    tally(wn_check(guarded, sizeof guarded, NULL, 0) == WN_ACCEPTED, "the sheet is accepted");
    expect_stop("it puts what the slot holds", run, WN_DONE, 17, 1, seven, 0, 10);
    for (words = 0; words <= 16; words++)
        for (fuel = 0; fuel <= 18; fuel++)
            expect_same(with_bench(with_fuel(run, fuel), words));
}

int main(void)
{
    hold_of_both(wn_watch);
    refused_sheets();
    refused_and_done();
    full_bench();
    accepted_sheets();
    return finish();
}
