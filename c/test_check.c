/* wn_check as a host calls it. The last line is 'N passed, M failed'. */
#include <string.h>

#include "harness.h"
#include "wennathig.h"

/* The answer is this number and place; the reply's other words, and the words around it, stay. */
static void expect(const char *what, const uint8_t *sheet, size_t len, uint64_t number, uint64_t place)
{
    uint64_t words[6], got;
    int i, kept = 1;

    for (i = 0; i < 6; i++)
        words[i] = BEFORE;
    got = wn_check(sheet, len, words + 1, 4);
    for (i = 0; i < 6; i++)
        kept = kept && (i == 1 || words[i] == BEFORE);
    if (got != number || words[1] != place)
        printf("expected %lu at %lu, answered %lu at %lu:\n", (unsigned long)number, (unsigned long)place,
               (unsigned long)got, (unsigned long)words[1]);
    tally(got == number && words[1] == place, what);
    tally(kept, what);
}

/* Main and the module of a type. Each of its variants below differs from it in one byte. */
static const uint8_t calls[] = {
    'H', 'D', 1, 1, 6, 3,                                   /*   0: one type, six qualified types, three procedures */
    'T', 'Y', 2, 1, 0, 255, 255, 255, 255, 255, 255, 255,   /*   6: type 2, call: read, amend; one slot, QT 0 */
    'Q', 'T', 0, 0, 0, 255,                                 /*  18: 0  integer */
    'Q', 'T', 2, 2, 0, 255,                                 /*  24: 1  call{read} */
    'Q', 'T', 2, 6, 0, 255,                                 /*  30: 2  call{read,amend} */
    'Q', 'T', 2, 1, 0, 255,                                 /*  36: 3  call{open} */
    'Q', 'T', 1, 14, 0, 2,                                  /*  42: 4  array[call{read,amend}]{fetch,store,size} */
    'Q', 'T', 1, 2, 0, 2,                                   /*  48: 5  array[call{read,amend}]{fetch} */
    'P', 'R', 0, 0, 4, 255, 5, 0,                           /*  54: main: four variables, five instructions */
    'V', 'R', 0, 255,                                       /*  62: 0  n */
    'V', 'R', 4, 255,                                       /*  66: 1  all */
    'V', 'R', 5, 255,                                       /*  70: 2  some */
    'V', 'R', 1, 255,                                       /*  74: 3  one, a call{read} */
    'I', 'N', 9, 1, 0, 255, 0, 0,                           /*  78: all <- new array of size n */
    'I', 'N', 6, 2, 1, 255, 0, 0,                           /*  86: some <- all */
    'I', 'N', 10, 3, 2, 0, 0, 0,                            /*  94: one <- some[n] */
    'I', 'N', 16, 0, 3, 255, 1, 0,                          /* 102: n <- procedure 1 (one) */
    'I', 'N', 17, 255, 255, 255, 0, 0,                      /* 110: return */
    'P', 'R', 2, 1, 2, 0, 2, 0,                             /* 118: of call: one formal, two variables, result integer */
    'V', 'R', 3, 1,                                         /* 126: 0  call: needs call{read}, inside call{open} */
    'V', 'R', 0, 255,                                       /* 130: 1  time */
    'I', 'N', 14, 1, 0, 255, 0, 0,                          /* 134: time <- slot 0 of call */
    'I', 'N', 17, 1, 255, 255, 0, 0,                        /* 142: return time */
    'P', 'R', 2, 1, 1, 1, 1, 0,                             /* 150: of call: one formal, result call{read} */
    'V', 'R', 2, 1,                                         /* 158: 0  call: needs call{read}, inside call{read,amend} */
    'I', 'N', 17, 0, 255, 255, 0, 0                         /* 162: return call */
};

/* A sheet of at most as many bytes as `calls`, with one of them changed */
static void expect_byte(const char *what, const uint8_t *from, size_t length, size_t at, uint8_t byte, uint64_t number, uint64_t place)
{
    uint8_t sheet[sizeof calls];

    memcpy(sheet, from, length);
    sheet[at] = byte;
    expect(what, sheet, length, number, place);
}

static void expect_changed(const char *what, size_t at, uint8_t byte, uint64_t number, uint64_t place)
{
    expect_byte(what, calls, sizeof calls, at, byte, number, place);
}

static void replies(void)
{
    uint64_t words[2] = {BEFORE, BEFORE};

    tally(wn_check(smallest, sizeof smallest, NULL, 0) == WN_ACCEPTED, "accepted, no reply");
    tally(wn_check(smallest, 21, NULL, 0) == WN_TORN, "refused, no reply");
    tally(wn_check(smallest, 21, words, 0) == WN_TORN, "refused, a reply of no words");
    tally(words[0] == BEFORE && words[1] == BEFORE, "a reply of no words stays as it is");
    tally(wn_check(smallest, 21, words, 1) == WN_TORN, "refused, a reply of one word");
    tally(words[0] == 14 && words[1] == BEFORE, "a reply of one word has the place");
    tally(wn_check(smallest, sizeof smallest, words, 1) == WN_ACCEPTED, "accepted, a reply of one word");
    tally(words[0] == 0 && words[1] == BEFORE, "the place of an accepted sheet is 0");
    tally(wn_check(NULL, 0, NULL, 0) == WN_TORN, "no sheet and no reply");
}

static void form(void)
{
    static uint8_t large[WN_SHEET_MAX + 1];
    uint8_t sheet[1 + sizeof smallest];
    size_t len;

    expect("the smallest sheet", smallest, sizeof smallest, WN_ACCEPTED, 0);
    expect("an empty sheet", smallest, 0, WN_TORN, 0);
    expect("an empty sheet at NULL", NULL, 0, WN_TORN, 0);
    for (len = 0; len < sizeof smallest; len++)
        expect("the smallest sheet cut short", smallest, len, WN_TORN, len < 6 ? 0 : len < 14 ? 6 : 14);

    memcpy(sheet + 1, smallest, sizeof smallest);
    expect("a sheet at an odd address", sheet + 1, sizeof smallest, WN_ACCEPTED, 0);
    memcpy(sheet, smallest, sizeof smallest);
    expect("an even one", sheet, sizeof smallest, WN_ACCEPTED, 0);
    sheet[sizeof smallest] = 'I';
    expect("a byte left over", sheet, sizeof sheet, WN_TORN, 22);

    expect("zeros, as many as there may be", large, WN_SHEET_MAX, WN_STRAY_MARK, 0);
    expect("one more", large, sizeof large, WN_OVERLONG, 0);
    memcpy(large, smallest, sizeof smallest);
    expect("the smallest sheet, then zeros", large, WN_SHEET_MAX, WN_TORN, 22);
    expect("and one more", large, sizeof large, WN_OVERLONG, 0);

    expect("a sheet with calls and arrays", calls, sizeof calls, WN_ACCEPTED, 0);
    expect_changed("stray mark at HD", 1, 'E', WN_STRAY_MARK, 0);
    expect_changed("stray mark at TY: the other letter", 6, 'Q', WN_STRAY_MARK, 6);
    expect_changed("stray mark at the last QT", 48, 'P', WN_STRAY_MARK, 48);
    expect_changed("stray mark at the second PR", 119, 'V', WN_STRAY_MARK, 118);
    expect_changed("stray mark at a later VR", 130, 'W', WN_STRAY_MARK, 130);
    expect_changed("stray mark at the last IN", 163, 'M', WN_STRAY_MARK, 162);
    expect_changed("edition 3", 2, 3, WN_BAD_EDITION, 0);
    expect_changed("33 types", 3, 33, WN_OFF_SCALE, 0);
    expect_changed("no procedures", 5, 0, WN_OFF_SCALE, 0);
    expect_changed("sixteen named rights", 8, 16, WN_OFF_SCALE, 6);
    expect_changed("an array of itself", 47, 4, WN_OFF_SCALE, 42);
    expect_changed("a qualified type that is not there", 72, 6, WN_OFF_SCALE, 70);
    expect_changed("code 18", 80, 18, WN_OFF_SCALE, 78);
    expect_changed("variable 4 of four", 97, 4, WN_OFF_SCALE, 94);
    expect_changed("an unused operand that is not 255", 91, 0, WN_OFF_SCALE, 86);
    expect_changed("a last instruction that is no return", 144, 8, WN_OFF_SCALE, 142);
    expect_changed("a call of procedure 3 of three", 108, 3, WN_OFF_SCALE, 102);
}

/* Document 02, S-3: an array without store may have elements with fewer rights than those of the array that moves into it. */
static void reading_arrays(void)
{
    uint8_t storing[sizeof calls];

    expect_changed("elements with fewer rights, without store: K7", 53, 1, WN_ACCEPTED, 0);
    expect_changed("elements with more rights, without store", 47, 1, WN_WRONG_KIND, 86);
    memcpy(storing, calls, sizeof calls);
    storing[51] = 6; /* 5  array[call{read,amend}]{fetch,store} */
    expect("equal elements, with store", storing, sizeof storing, WN_ACCEPTED, 0);
    expect_byte("elements with fewer rights, with store: K6", storing, sizeof storing, 53, 1, WN_WRONG_KIND, 86);
}

static void access_rules(void)
{
    expect_changed("a slot with open", 10, 3, WN_OPEN_EXPOSED, 6);
    expect_changed("an element with open", 53, 3, WN_OPEN_EXPOSED, 48);
    expect_changed("a result with open", 155, 3, WN_OPEN_EXPOSED, 150);
    expect_changed("a need with open", 161, 3, WN_OPEN_EXPOSED, 158);
    expect_changed("a variable of main with open", 76, 3, WN_OPEN_EXPOSED, 74);
    expect_changed("an amplified formal that needs another type", 161, 0, WN_FALSE_RAISE, 158);
    expect_changed("an integer inside that needs a call", 160, 0, WN_FALSE_RAISE, 158);
    expect_changed("a formal amplified without an owner", 152, 0, WN_FALSE_RAISE, 158);
    expect_changed("a size that is an array", 82, 2, WN_WRONG_KIND, 78);
    expect_changed("a fetch into an integer", 97, 0, WN_WRONG_KIND, 94);
    expect_changed("a return without its variable", 145, 255, WN_WRONG_KIND, 142);
    expect_changed("fetch without the right", 51, 8, WN_MISSING_RIGHT, 94);
    expect_changed("a binding that would add a right", 45, 8, WN_MISSING_RIGHT, 86);
    expect_changed("a slot of what is not opened", 128, 1, WN_MISSING_RIGHT, 134);
    expect_changed("an actual that lacks a right", 129, 2, WN_MISSING_RIGHT, 102);
    expect_changed("a return that lacks a right", 160, 3, WN_MISSING_RIGHT, 162);
    /* record by record: the call comes before the PR whose result has open */
    expect_changed("a refusal before one with a lower number", 123, 3, WN_WRONG_KIND, 102);
}

/* Document 02, S-5: edition 2, with four bytes of rights. Main binds a call under right 31 to one under rights 16 and 31. */
static const uint8_t wide[] = {
    'H', 'D', 2, 1, 3, 2,                                   /*   0: edition 2, one type, three qualified types, two procedures */
    'T', 'Y', 31, 0, 255, 255, 255, 255, 255, 255, 255, 255, /*   6: type 2, call: 31 named rights */
    'Q', 'T', 2, 0, 0, 0, 128, 255,                         /*  18: 0  call{right 31} */
    'Q', 'T', 2, 0, 0, 1, 128, 255,                         /*  26: 1  call{right 16,right 31} */
    'Q', 'T', 255, 0, 0, 0, 0, 255,                         /*  34: 2  ?R */
    'P', 'R', 0, 0, 2, 255, 3, 0,                           /*  42: main */
    'V', 'R', 0, 255,                                       /*  50: 0 */
    'V', 'R', 1, 255,                                       /*  54: 1 */
    'I', 'N', 6, 0, 1, 255, 0, 0,                           /*  58: 0 <- 1 */
    'I', 'N', 16, 255, 1, 255, 1, 0,                        /*  66: procedure 1 (1) */
    'I', 'N', 17, 255, 255, 255, 0, 0,                      /*  74 */
    'P', 'R', 0, 1, 1, 255, 1, 0,                           /*  82 */
    'G', 'N', 2, 0, 0, 0, 128,                              /*  90: for ?R >= call{right 31} */
    'V', 'R', 2, 2,                                         /*  97 */
    'I', 'N', 17, 255, 255, 255, 0, 0                       /* 101 */
};

/* One byte of the sheet of edition 2 changed */
static void expect_wide(const char *what, size_t at, uint8_t byte, uint64_t number, uint64_t place)
{
    expect_byte(what, wide, sizeof wide, at, byte, number, place);
}

static void editions(void)
{
    expect("a sheet of edition 2", wide, sizeof wide, WN_ACCEPTED, 0);
    expect("a QT of edition 2 cut after six bytes", wide, 24, WN_TORN, 18);
    expect("a GN of edition 2 cut after five bytes", wide, 95, WN_TORN, 90);
    expect_wide("neither 1 nor 2", 2, 3, WN_BAD_EDITION, 0);
    expect_wide("its bytes as edition 1", 2, 1, WN_OFF_SCALE, 6);
    expect_wide("32 named rights", 8, 32, WN_OFF_SCALE, 6);
    expect_wide("right 31 of 30", 8, 30, WN_OFF_SCALE, 18);
    expect_wide("?R with right 16", 39, 1, WN_OFF_SCALE, 34);
    expect_wide("a binding that would add right 30", 24, 192, WN_MISSING_RIGHT, 58);
    expect_wide("a settled set that lacks right 17", 95, 2, WN_SHORT, 66);
}

/* main calls a procedure whose two formals are ?R, at least call{read}, with two calls that may be read */
static const uint8_t named[] = {
    'H', 'D', 1, 1, 3, 2,                                   /*   0 */
    'T', 'Y', 2, 0, 255, 255, 255, 255, 255, 255, 255, 255, /*   6: call, read and amend */
    'Q', 'T', 2, 2, 0, 255,                                 /*  18: call{read} */
    'Q', 'T', 2, 6, 0, 255,                                 /*  24: call{read,amend} */
    'Q', 'T', 255, 0, 0, 255,                               /*  30: ?R */
    'P', 'R', 0, 0, 2, 255, 2, 0,                           /*  36: main */
    'V', 'R', 0, 255,                                       /*  44 */
    'V', 'R', 0, 255,                                       /*  48 */
    'I', 'N', 16, 255, 0, 255, 1, 0,                        /*  52: call of procedure 1 */
    'I', 'N', 17, 255, 255, 255, 0, 0,                      /*  60 */
    'P', 'R', 0, 2, 2, 255, 1, 0,                           /*  68 */
    'G', 'N', 2, 2, 0,                                      /*  76: for ?R >= call{read} */
    'V', 'R', 2, 2,                                         /*  81 */
    'V', 'R', 2, 2,                                         /*  85 */
    'I', 'N', 17, 255, 255, 255, 0, 0                       /*  89 */
};

/* One byte of the sheet with a rights name changed */
static void expect_named(const char *what, size_t at, uint8_t byte, uint64_t number, uint64_t place)
{
    expect_byte(what, named, sizeof named, at, byte, number, place);
}

static void rights_names(void)
{
    expect("a sheet with a rights name", named, sizeof named, WN_ACCEPTED, 0);
    expect("a GN cut after its mark", named, 78, WN_TORN, 76);
    expect_named("two actuals that differ", 50, 1, WN_UNSETTLED, 52);
    expect_named("a settled set that lacks a right", 79, 6, WN_SHORT, 52);
    expect_named("no mark of a GN", 76, 'V', WN_STRAY_MARK, 76);
    expect_named("a least set with open", 79, 3, WN_OFF_SCALE, 76);
    expect_named("a base that is not declared", 78, 3, WN_OFF_SCALE, 76);
    expect_named("?R in main", 46, 2, WN_OFF_SCALE, 44);
    expect_named("?R inside that needs a call", 84, 0, WN_FALSE_RAISE, 81);
}

int main(void)
{
    replies();
    form();
    reading_arrays();
    editions();
    access_rules();
    rights_names();
    return finish();
}
