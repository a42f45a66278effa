/* wennathig.h: checking, running and watching a worksheet, for a host written in C (C99) or C++.
**
** Link libwennathig.a and, for wn_watch, libwennathig_watch.a; each needs nothing but the C library, and a program may
** link both. c/host.c is a whole host.
**
** What the calls have in common:
**
**   Answers     Every call answers, whatever the arguments: no content and no length of a buffer is refused by anything
**               but a number of enum wn_number, and nothing is owed before a call but what C asks of pointers, below.
**   Pointers    A buffer is a pointer and a length in elements of the pointer's type. The pointer is valid for so many
**               elements, which are one object of C or a part of one: for reading if it is const, for reading and writing
**               if not. With a length of 0 it is not used and may be anything, NULL too.
**   Alignment   A pointer is aligned for its type, as C asks of every pointer: reads and report to 4 bytes, bench and
**               reply to 8. A sheet may start at any address. What malloc gives is aligned for all of them.
**   Aliasing    A buffer that is written, bench, report or reply, shares no byte with another buffer of the same call, as
**               if it were declared restrict. sheet and reads are only read, and may overlap each other.
**   Between     A pointer is not kept after its call. The library has no state of its own, uses no heap, no file and no
**               signal, and leaves errno alone: calls with buffers of their own may be made from any threads at once.
**   Stack       A call takes less than WN_STACK_MAX bytes of stack, whatever the arguments: nothing recurses. Only the first
**               calls of a program that binds the C library's functions late, as is usual, take what the dynamic linker
**               needs besides, some thousands of bytes; link with -z now, or statically, or make them where stack is plenty.
*/
#ifndef WENNATHIG_H
#define WENNATHIG_H

#include <stddef.h>
#include <stdint.h>

#ifdef __cplusplus
extern "C" {
#endif

/* The version, which stands here and nowhere else: a request that lands raises the minor number. */
#define WN_VERSION_MAJOR 1
#define WN_VERSION_MINOR 5
#define WN_VERSION_PATCH 1

/* The same as text, "MAJOR.MINOR.PATCH". */
#define WN_VERSION WN_DOTTED_(WN_VERSION_MAJOR, WN_VERSION_MINOR, WN_VERSION_PATCH)
#define WN_DOTTED_(major, minor, patch) WN_TEXT_(major) "." WN_TEXT_(minor) "." WN_TEXT_(patch)
#define WN_TEXT_(number) #number

/* The longest sheet, in bytes. */
#define WN_SHEET_MAX 32768

/* The largest bench, the memory lent to a run, in words of 8 bytes. */
#define WN_MEMORY_MAX 65536

/* More bytes of stack than a call takes, as these libraries are built, for x86-64. */
#define WN_STACK_MAX 4096

/* What an answer's number says: the papers' word, then its meaning. The letters tell which calls answer it: c wn_check,
** r wn_run, w wn_watch.
*/
enum wn_number {
/*----------------------------------------------------------------------
  name                 calls    word: meaning
------------------------------------------------------------------------*/
WN_ACCEPTED       =  0, /* c   accepted: the sheet keeps every rule                  */

/* refusals, each with the byte at which the refused record starts */
WN_OVERLONG       =  1, /* crw overlong: more than 32,768 bytes; place 0             */
WN_TORN           =  2, /* crw torn: a record is cut short, or bytes are left over,  */
                        /*     whose place is then the first of these                */
WN_STRAY_MARK     =  3, /* crw stray mark: not the mark that is due                  */
WN_BAD_EDITION    =  4, /* crw edition: neither 1 nor 2                              */
WN_OFF_SCALE      =  5, /* crw off scale: a field is outside the layout              */
WN_OPEN_EXPOSED   =  6, /* cr  loose key: the right open stands where it may not     */
WN_FALSE_RAISE    =  7, /* cr  false raise: need and inner of a formal disagree      */
WN_WRONG_KIND     =  8, /* cr  wrong kind: base, element or form of return           */
WN_MISSING_RIGHT  =  9, /* cr  no licence: a right is lacking                        */
WN_BIG_MEMORY     = 10, /*  rw big bench: more than 65,536 words of memory are lent; */
                        /*     place 0                                               */

/* stops, each with steps, words put, procedure and instruction */
WN_DONE           = 11, /*  rw done: the first frame, main's, returned               */
WN_FUEL_SPENT     = 12, /*  rw fuel spent: as many steps as fuel                     */
WN_BLANK          = 13, /*  rw blank: an empty variable, cell or slot is used        */
WN_PAST_END       = 14, /*  rw past the tray: the index is not below the size        */
WN_READS_ENDED    = 15, /*  rw reads ended: none is left to take                     */
WN_REPORT_FULL    = 16, /*  rw report full: no word is free                          */
WN_MEMORY_FULL    = 17, /*  rw bench full: the units exceed the words of memory lent */
WN_CARRIED_KIND   = 18, /*   w mixed sample: a value of the wrong kind               */
WN_CARRIED_RIGHT  = 19, /*   w unlicensed: a value does not carry the right needed   */

/* refusals once more, of a call whose callee has a rights name, ?R: asked before 8 and 9 of the same call */
WN_UNSETTLED      = 20, /* cr  unsettled: no formal uses ?R, or two actuals differ   */
WN_SHORT          = 21  /* cr  short: the settled set lacks a least right            */
};

/* The papers' word for a number, as above; "no such number" for any other, so that the text is never NULL. */
static inline const char *wn_word(uint64_t number)
{
    static const char *const words[] = {
        "accepted",
        "overlong", "torn", "stray mark", "edition", "off scale",
        "loose key", "false raise", "wrong kind", "no licence", "big bench",
        "done", "fuel spent", "blank", "past the tray", "reads ended",
        "report full", "bench full", "mixed sample", "unlicensed", "unsettled",
        "short"
    };

    return number < sizeof words / sizeof *words ? words[number] : "no such number";
}

/* Checks a sheet. Gives WN_ACCEPTED (0), or the number of the refusal (1 to 9, 20 or 21).
**
**   sheet   sheet_len bytes, of any content and length; only read.
**   reply   reply_len words. The first, if there is one, becomes the refusal's place, the byte of the sheet at which the
**           refused record starts; 0 for an accepted sheet. Words after the first stay as they are.
*/
uint64_t wn_check(const uint8_t *sheet, size_t sheet_len, uint64_t *reply, size_t reply_len);

/* The words of the reply of wn_run and wn_watch. */
enum wn_reply {
WN_PLACE          =  0, /*  of a refusal: the byte at which the refused record starts  */
WN_STEPS          =  1, /*  of a stop: the steps made                             */
WN_WORDS          =  2, /*  of a stop: the words put on the report                */
WN_PROCEDURE      =  3, /*  of a stop: the procedure and, in it, the instruction  */
WN_INSTRUCTION    =  4, /*    stopped at, or main's return; 0, 0 before main opens  */
WN_REPLY_WORDS    =  5
};

/* Checks a sheet and, if it is accepted, runs it to its stop. Gives the number of the refusal (1 to 10, 20 or 21) or of the
** stop (11 to 17). A sheet that wn_check refuses is refused with the same number and place; then a bench of more than
** WN_MEMORY_MAX words is refused with WN_BIG_MEMORY.
**
**   sheet   sheet_len bytes, of any content and length; only read.
**   reads   reads_len words, which code 7 takes in order from the first; only read. Not all need be taken.
**   fuel    the most steps that are made; 0 and UINT64_MAX are ordinary. A sheet may loop: fuel alone bounds the time.
**   bench   bench_len words, the run's only memory. What they hold before the call does not matter. After a stop, any
**           stop, every one of them is 0. After a refusal they are as they were.
**   report  report_len words, which code 8 fills in order from the first. After a stop the first reply[WN_WORDS] of them
**           are the words put, and the others are as they were. After a refusal all are as they were.
**   reply   reply_len words. The first five, as far as there are so many, become what enum wn_reply says: after a refusal
**           its place, then 0, 0, 0, 0; after a stop 0, then steps, words put, procedure and instruction. Words after the
**           fifth stay as they are.
*/
uint64_t wn_run(const uint8_t *sheet, size_t sheet_len, const uint32_t *reads, size_t reads_len, uint64_t fuel,
                uint64_t *bench, size_t bench_len, uint32_t *report, size_t report_len,
                uint64_t *reply, size_t reply_len);

/* Runs a sheet that need only be well-formed, not accepted, on the machine that keeps rights beside its values and tests
** them at every use. Gives the number of the refusal (1 to 5, or 10) or of the stop (11 to 19). A sheet that wn_check
** accepts gives here what wn_run gives, in every part.
**
** The parameters are those of wn_run, and the buffers hold afterwards what they hold after wn_run. Link
** libwennathig_watch.a.
*/
uint64_t wn_watch(const uint8_t *sheet, size_t sheet_len, const uint32_t *reads, size_t reads_len, uint64_t fuel,
                  uint64_t *bench, size_t bench_len, uint32_t *report, size_t report_len,
                  uint64_t *reply, size_t reply_len);

#ifdef __cplusplus
}
#endif

#endif
