/* A plain interpreter of accepted sheets, for the benchmark alone: a switch in a loop over the IN records, with the
** machine's own stops and no other test. It checks nothing: a sheet that wn_check refuses may make it do anything.
**
** Frames grow from the memory's first word up, objects from its last word down. A frame is two words that tell the way
** back, then its variables; an object is its size, then its cells. A cell is 0 if blank, else FILLED with an integer or
** with the word at which an object starts.
*/
#include <string.h>

#include "wennathig.h"

#define FILLED (UINT64_C(1) << 32)
#define NONE 255
#define GO_ON 0

struct machine {
    const uint8_t *sheet, *procedure, *at;  /* the PR that works and the IN that is due */
    const uint8_t *const *procedures;
    uint64_t *memory, *frame, *top, *heap;  /* variables that work, the end of the frames, the start of the objects */
    const uint32_t *reads, *reads_end;
    uint32_t *report, *report_end;
};

static inline uint64_t k_of(const uint8_t *in)
{
    return in[6] | (uint64_t)in[7] << 8;
}

static inline const uint8_t *first_of(const uint8_t *procedure)
{
    return procedure + 8 + 4 * procedure[4];
}

/* Gives a cell to variable a and goes on to the next instruction. */
static inline uint64_t give(struct machine *m, const uint8_t *in, uint64_t cell)
{
    m->frame[in[3]] = cell;
    m->at = in + 8;
    return GO_ON;
}

static inline uint64_t add(struct machine *m, const uint8_t *in)
{
    uint64_t b = m->frame[in[4]], c = m->frame[in[5]];

    return b == 0 || c == 0 ? WN_BLANK : give(m, in, FILLED | (uint32_t)(b + c));
}

static inline uint64_t subtract(struct machine *m, const uint8_t *in)
{
    uint64_t b = m->frame[in[4]], c = m->frame[in[5]];

    return b == 0 || c == 0 ? WN_BLANK : give(m, in, FILLED | (uint32_t)(b - c));
}

static inline uint64_t less(struct machine *m, const uint8_t *in)
{
    uint64_t b = m->frame[in[4]], c = m->frame[in[5]];

    return b == 0 || c == 0 ? WN_BLANK : give(m, in, FILLED | (b < c));
}

static inline uint64_t jump(struct machine *m, const uint8_t *in)
{
    uint64_t a = m->frame[in[3]];

    if (a == 0)
        return WN_BLANK;
    if ((uint32_t)a == 0)
        m->at = first_of(m->procedure) + 8 * k_of(in);
    else
        m->at = in + 8;
    return GO_ON;
}

static inline uint64_t put(struct machine *m, const uint8_t *in)
{
    uint64_t a = m->frame[in[3]];

    if (a == 0)
        return WN_BLANK;
    if (m->report == m->report_end)
        return WN_REPORT_FULL;
    *m->report++ = (uint32_t)a;
    m->at = in + 8;
    return GO_ON;
}

/* An object of so many blank cells */
static inline uint64_t make(struct machine *m, const uint8_t *in, uint64_t size)
{
    if ((uint64_t)(m->heap - m->top) < size + 1)
        return WN_MEMORY_FULL;
    m->heap -= size + 1;
    m->heap[0] = size;
    memset(m->heap + 1, 0, size * sizeof *m->heap);
    return give(m, in, FILLED | (uint64_t)(m->heap - m->memory));
}

static inline uint64_t fetch(struct machine *m, const uint8_t *in)
{
    uint64_t b = m->frame[in[4]], c = m->frame[in[5]];
    const uint64_t *array = m->memory + (uint32_t)b;

    if (b == 0 || c == 0)
        return WN_BLANK;
    if ((uint32_t)c >= array[0])
        return WN_PAST_END;
    if (array[1 + (uint32_t)c] == 0)
        return WN_BLANK;
    return give(m, in, array[1 + (uint32_t)c]);
}

static inline uint64_t store(struct machine *m, const uint8_t *in)
{
    uint64_t a = m->frame[in[3]], b = m->frame[in[4]], c = m->frame[in[5]];
    uint64_t *array = m->memory + (uint32_t)a;

    if (a == 0 || b == 0)
        return WN_BLANK;
    if ((uint32_t)b >= array[0])
        return WN_PAST_END;
    if (c == 0)
        return WN_BLANK;
    array[1 + (uint32_t)b] = c;
    m->at = in + 8;
    return GO_ON;
}

static inline uint64_t get_slot(struct machine *m, const uint8_t *in)
{
    uint64_t b = m->frame[in[4]];
    uint64_t cell = b == 0 ? 0 : m->memory[(uint32_t)b + 1 + k_of(in)];

    return cell == 0 ? WN_BLANK : give(m, in, cell);
}

static inline uint64_t set_slot(struct machine *m, const uint8_t *in)
{
    uint64_t a = m->frame[in[3]], b = m->frame[in[4]];

    if (a == 0 || b == 0)
        return WN_BLANK;
    m->memory[(uint32_t)a + 1 + k_of(in)] = b;
    m->at = in + 8;
    return GO_ON;
}

/* The way back is the IN of the call and the caller's PR, as bytes of the sheet, then the caller's frame. */
static inline uint64_t call(struct machine *m, const uint8_t *in)
{
    const uint8_t *callee = m->procedures[in[6]];
    size_t formals = callee[3], variables = callee[4], i;
    uint64_t *frame = m->top + 2;

    if ((size_t)(m->heap - m->top) < variables + 2)
        return WN_MEMORY_FULL;
    for (i = 0; i < formals; i++) {
        frame[i] = m->frame[in[4] + i];
        if (frame[i] == 0)
            return WN_BLANK;
    }
    for (; i < variables; i++)
        frame[i] = 0;
    frame[-2] = (uint64_t)(in - m->sheet) | (uint64_t)(m->procedure - m->sheet) << 32;
    frame[-1] = (uint64_t)(m->frame - m->memory);
    m->frame = frame;
    m->top = frame + variables;
    m->procedure = callee;
    m->at = first_of(callee);
    return GO_ON;
}

static inline uint64_t leave(struct machine *m, const uint8_t *in)
{
    uint64_t value = in[3] == NONE ? 0 : m->frame[in[3]], back;

    if (in[3] != NONE && value == 0)
        return WN_BLANK;
    if (m->frame == m->memory + 2)
        return WN_DONE;
    back = m->frame[-2];
    in = m->sheet + (uint32_t)back;
    m->procedure = m->sheet + (back >> 32);
    m->top = m->frame - 2;
    m->frame = m->memory + m->frame[-1];
    if (in[3] != NONE)
        m->frame[in[3]] = value;
    m->at = in + 8;
    return GO_ON;
}

/* One step: GO_ON, or the stop, which has changed nothing. */
static inline uint64_t step(struct machine *m)
{
    const uint8_t *in = m->at;
    uint64_t b;

    switch (in[2]) {
    case 1: return give(m, in, FILLED | k_of(in));
    case 2: return add(m, in);
    case 3: return subtract(m, in);
    case 4: return less(m, in);
    case 5: return jump(m, in);
    case 6: b = m->frame[in[4]]; return b == 0 ? WN_BLANK : give(m, in, b);
    case 7: return m->reads == m->reads_end ? WN_READS_ENDED : give(m, in, FILLED | *m->reads++);
    case 8: return put(m, in);
    case 9: b = m->frame[in[4]]; return b == 0 ? WN_BLANK : make(m, in, (uint32_t)b);
    case 10: return fetch(m, in);
    case 11: return store(m, in);
    case 12: b = m->frame[in[4]]; return b == 0 ? WN_BLANK : give(m, in, FILLED | m->memory[(uint32_t)b]);
    case 13: return make(m, in, m->sheet[6 + 12 * (m->procedure[2] - 2) + 3]);
    case 14: return get_slot(m, in);
    case 15: return set_slot(m, in);
    case 16: return call(m, in);
    default: return leave(m, in);
    }
}

/* The stop of the run, and the steps made. The machine is a copy, of which gcc keeps the parts in registers. */
static uint64_t work(struct machine *whole, uint64_t fuel, uint64_t *steps)
{
    struct machine m = *whole;
    uint64_t stop = WN_FUEL_SPENT, made;

    for (made = 0; made != fuel; made++) {
        stop = step(&m);
        if (stop != GO_ON)
            break;
        stop = WN_FUEL_SPENT;
    }
    *steps = made + (stop == WN_DONE);
    *whole = m;
    return stop;
}

static const uint8_t *main_of(const uint8_t *sheet)
{
    return sheet + 6 + 12 * sheet[3] + 6 * sheet[4];
}

/* Finds the PR records; the count of instructions stands where k does in an IN. */
static size_t find_procedures(const uint8_t *sheet, const uint8_t **procedures)
{
    const uint8_t *at = main_of(sheet);
    size_t count = sheet[5], i;

    for (i = 0; i < count; i++) {
        procedures[i] = at;
        at = first_of(at) + 8 * k_of(at);
    }
    return count;
}

/* Opens main's frame, if it fits. */
static int open_main(struct machine *m, size_t memory_len)
{
    size_t variables = m->procedure[4];

    if (memory_len < variables + 2)
        return 0;
    m->frame = m->memory + 2;
    m->top = m->frame + variables;
    m->heap = m->memory + memory_len;
    memset(m->frame, 0, variables * sizeof *m->frame);
    return 1;
}

/* Like wn_run, for an accepted sheet, at most WN_MEMORY_MAX words and a reply of WN_REPLY_WORDS */
uint64_t bench_run(const uint8_t *sheet, const uint32_t *reads, size_t reads_len, uint64_t fuel,
                   uint64_t *memory, size_t memory_len, uint32_t *report, size_t report_len, uint64_t *reply)
{
    const uint8_t *procedures[64];
    size_t count = find_procedures(sheet, procedures), number = 0;
    struct machine m = {0};
    uint64_t stop;

    m.sheet = sheet, m.procedures = procedures, m.memory = memory;
    m.procedure = main_of(sheet), m.at = first_of(m.procedure);
    m.reads = reads, m.reads_end = reads + reads_len;
    m.report = report, m.report_end = report + report_len;
    reply[WN_STEPS] = 0;
    stop = open_main(&m, memory_len) ? work(&m, fuel, &reply[WN_STEPS]) : WN_MEMORY_FULL;
    while (number < count && procedures[number] != m.procedure)
        number++;
    reply[WN_PLACE] = 0;
    reply[WN_WORDS] = (uint64_t)(m.report - report);
    reply[WN_PROCEDURE] = number;
    reply[WN_INSTRUCTION] = (uint64_t)(m.at - first_of(m.procedure)) / 8;
    if (memory_len > 0)
        memset(memory, 0, memory_len * sizeof *memory);
    return stop;
}
