/* Calls the proved library for whoever writes calls to standard input, and writes to standard output what came of them.
 *
 * All numbers are 64 bits, little-endian. Both ways go batches: the length of what follows, and then one call or answer
 * after another.
 *   a call:     its number (enum below), and its parameters in the order of cms.h but for the answer: a number as it is,
 *               a slice as its length in bytes and then its bytes; a board is a slice of members without the bytes that
 *               lie unused in each
 *   an answer:  0, or what was changed that may not be (see `changed`); what the call returned; and all memory that was
 *               lent to be written, whole, in the order of the parameters, the answer last
 *   PAINTED before a call makes it on a stack of its own; how many bytes of that were touched comes after the answer
 *   THREADED before a call makes it on a thread whose stack has 128 KB
 * Before all, one number says that the bridge is there.
 *
 * Each slice is lent from a place of its own that ends where no memory may be touched, so a step past its end ends this
 * program by a signal. Bytes in front of it are watched, and what is only read must be afterwards what it was. */
#define _DEFAULT_SOURCE
#include "cms.h"
#include <pthread.h>
#include <stdlib.h>
#include <string.h>
#include <sys/mman.h>
#include <unistd.h>

enum { READ, WRITE, PAIR, OUTCOME, WALK, POST, APART, TOUCH, DIG, PAINTED,
       EVIDENCE_READ, EVIDENCE_PART, EVIDENCE_WRITE, EVIDENCE_COMPARE,
       DAY_READ, DAY_BODY, DAY_WRITE, PART, END, ARRIVE, BOARD_POST, WRITE_EB12, TWO_RESULTS, SIGNED, THREADED };

#define THERE UINT64_C(0x636d735f66616365)

/* A multiple of the page sizes that are in use. */
#define GUARD ((size_t)1 << 16)
/* Multiples of that. A length of a frame has four digits from 16,777,216 bytes on; no file is so long. */
#define LONGEST ((size_t)17 << 20)
#define STACK ((size_t)1 << 20)
#define THREAD ((size_t)1 << 17)
#define WATCHED ((size_t)64)
#define MOST 8

/* What was lent: place, length, the bytes that it held before where they may not change, and whether it is a board. */
static struct lent {
    uint8_t *end, *start;
    size_t length;
    const uint8_t *before;
    int is_board;
} lent[MOST];
static size_t lent_count;

/* What stands in front of all that is lent. */
static uint8_t watched[WATCHED];

static const uint8_t *call, *calls_end;
static uint8_t *answers;
static size_t answers_length, answers_room;

static void fail(const char *why) {
    if (write(2, why, strlen(why)) < 0) _exit(3);
    _exit(2);
}

/* ---- standard input and output */

static int get(void *to, size_t length) {
    uint8_t *at = to;
    while (length > 0) {
        ssize_t got = read(0, at, length);
        if (got <= 0) return 0;
        at += got;
        length -= (size_t)got;
    }
    return 1;
}

static void put(const void *from, size_t length) {
    const uint8_t *at = from;
    while (length > 0) {
        ssize_t went = write(1, at, length);
        if (went <= 0) _exit(0);
        at += went;
        length -= (size_t)went;
    }
}

static void *room(void *old, size_t length) {
    void *new = realloc(old, length);
    if (!new) fail("the bridge has no memory for a batch\n");
    return new;
}

static void answer_with(const void *bytes, size_t length) {
    if (answers_room - answers_length < length) {
        answers_room = 2 * (answers_room + length);
        answers = room(answers, answers_room);
    }
    memcpy(answers + answers_length, bytes, length);
    answers_length += length;
}

static void answer_number(uint64_t number) { answer_with(&number, sizeof number); }

/* ---- lending */

static void make_places(void) {
    size_t each = LONGEST + GUARD;
    uint8_t *all = mmap(NULL, MOST * each + 2 * GUARD, PROT_NONE, MAP_PRIVATE | MAP_ANONYMOUS, -1, 0);
    if (all == MAP_FAILED) fail("the bridge has no memory to lend\n");
    all += GUARD - (uintptr_t)all % GUARD;
    for (size_t i = 0; i < WATCHED; i++) watched[i] = (uint8_t)(0xa5 ^ i);
    for (size_t i = 0; i < MOST; i++, all += each) {
        if (mprotect(all, LONGEST, PROT_READ | PROT_WRITE)) fail("the bridge cannot guard memory\n");
        lent[i].end = all + LONGEST;
    }
}

static struct lent *lend(size_t length) {
    if (lent_count == MOST || length > LONGEST - WATCHED) fail("the bridge lends no more than it has\n");
    struct lent *one = &lent[lent_count++];
    one->start = one->end - length;
    one->length = length;
    one->before = NULL;
    one->is_board = 0;
    memcpy(one->start - WATCHED, watched, WATCHED);
    return one;
}

static const uint8_t *taken_from_call(size_t length) {
    const uint8_t *at = call;
    if ((size_t)(calls_end - call) < length) fail("the bridge was sent half a call\n");
    call += length;
    return at;
}

static uint64_t number(void) {
    uint64_t number;
    memcpy(&number, taken_from_call(sizeof number), sizeof number);
    return number;
}

static struct lent *slice(void) {
    size_t length = number();
    const uint8_t *bytes = taken_from_call(length);
    struct lent *one = lend(length);
    if (length > 0) memcpy(one->start, bytes, length);
    one->before = bytes;
    return one;
}

static struct lent *to_write(struct lent *one) {
    one->before = NULL;
    return one;
}

/* How many bytes of a member are sent: payer, owed, state. */
#define SENT ((size_t)36)

/* A board to be written. The bytes of a member that say nothing hold something else in each. */
static void board(void) {
    size_t count = number() / SENT;
    const uint8_t *sent = taken_from_call(count * SENT);
    struct lent *one = lend(count * sizeof(struct cms_member));
    struct cms_member *members = (struct cms_member *)(void *)one->start;
    for (size_t i = 0; i < count; i++, sent += SENT) {
        memset(&members[i], (int)(i % 251), sizeof members[i]);
        memcpy(members[i].payer, sent, 20);
        memcpy(&members[i].owed, sent + 20, 8);
        memcpy(&members[i].state, sent + 28, 8);
    }
    one->is_board = 1;
}

static void answer_with_board(const struct lent *one) {
    const struct cms_member *members = (const struct cms_member *)(const void *)one->start;
    for (size_t i = 0; i < one->length / sizeof members[i]; i++) {
        answer_with(members[i].payer, 20);
        answer_number(members[i].owed);
        answer_number(members[i].state);
    }
}

/* Numbers that no answer has. */
static void an_answer(size_t numbers) {
    uint64_t *first = (uint64_t *)(void *)lend(numbers * sizeof(uint64_t))->start;
    for (size_t i = 0; i < numbers; i++) first[i] = UINT64_C(0xfeedfacecafe0000) + i;
}

/* 0, or for the i-th slice that was lent, from 0: 2i + 1 where it was changed itself, 2i + 2 where bytes before it were. */
static uint64_t changed(void) {
    for (size_t i = 0; i < lent_count; i++) {
        const struct lent *one = &lent[i];
        if (one->before && one->length > 0 && memcmp(one->start, one->before, one->length)) return 2 * i + 1;
        if (memcmp(one->start - WATCHED, watched, WATCHED)) return 2 * i + 2;
    }
    return 0;
}

/* ---- calls: each is a function of the library with what was lent, in the order of its parameters, and a number or two;
 * but ARRIVE is some calls of two functions */

typedef uint64_t (*function)(void);

/* The kind, pair or profile. */
static uint32_t kind;
static uint64_t given, also;

#define BYTES(i) lent[i].start, lent[i].length
#define LIST(i) NUMBERS(i), lent[i].length / sizeof(uint64_t)
#define NUMBERS(i) (uint64_t *)(void *)lent[i].start
#define MEMBERS(i) (struct cms_member *)(void *)lent[i].start, lent[i].length / sizeof(struct cms_member)

static uint64_t call_read(void) { return cms_read(kind, BYTES(0), NUMBERS(1)); }
static uint64_t call_write(void) {
    return cms_write(kind, BYTES(0), BYTES(1), BYTES(2), BYTES(3), BYTES(4), BYTES(5), NUMBERS(6));
}
static uint64_t call_pair(void) { return cms_pair(kind, BYTES(0), BYTES(1), LIST(2), LIST(3), NUMBERS(4)); }
static uint64_t call_outcome(void) { return cms_outcome(kind, BYTES(0), BYTES(1), given, NUMBERS(2)); }
static uint64_t call_walk(void) { return cms_walk(kind, BYTES(0), given, NUMBERS(1)); }
static uint64_t call_post(void) { return cms_post(BYTES(0), BYTES(1), BYTES(2)); }
static uint64_t call_apart(void) { return cms_apart(kind, BYTES(0), BYTES(1), NUMBERS(2)); }
static uint64_t call_evidence_read(void) { return cms_evidence_read(kind, BYTES(0), NUMBERS(1)); }
static uint64_t call_evidence_part(void) { return cms_evidence_part(kind, BYTES(0), given, NUMBERS(1)); }
static uint64_t call_evidence_write(void) {
    return cms_evidence_write(kind, BYTES(0), BYTES(1), BYTES(2), BYTES(3), NUMBERS(4));
}
static uint64_t call_evidence_compare(void) { return cms_evidence_compare(kind, BYTES(0), BYTES(1), NUMBERS(2)); }
static uint64_t call_day_read(void) { return cms_day_read(BYTES(0), NUMBERS(1)); }
static uint64_t call_day_body(void) { return cms_day_body(BYTES(0), given, NUMBERS(1)); }
static uint64_t call_day_write(void) { return cms_day_write(BYTES(0), LIST(1), BYTES(2), BYTES(3), NUMBERS(4)); }
static uint64_t call_part(void) { return cms_part(NUMBERS(0), BYTES(1), BYTES(2)); }
static uint64_t call_end(void) { return cms_end(kind, NUMBERS(0), BYTES(1), NUMBERS(2)); }
static uint64_t call_board_post(void) {
    return cms_board_post(kind, BYTES(0), BYTES(1), MEMBERS(2), lent[3].start, NUMBERS(4));
}
static uint64_t call_write_eb12(void) { return cms_write_eb12(BYTES(0), LIST(1), BYTES(2), NUMBERS(3)); }
static uint64_t call_two_results(void) { return cms_two_results(kind, BYTES(0), BYTES(1), BYTES(2), NUMBERS(3)); }
static uint64_t call_signed(void) { return cms_signed(BYTES(0)); }

/* A whole arrival with nothing lent anew on the way: parts of the file as long as the list says, each with what it returned
 * and the state behind it, and then the end. */
static uint64_t call_arrive(void) {
    uint64_t *state = NUMBERS(0), *lengths = NUMBERS(3), *said = NUMBERS(4);
    const uint8_t *part = lent[2].start;
    for (size_t i = 0; i < lent[3].length / sizeof(uint64_t); part += lengths[i], i++, said += 3) {
        said[0] = cms_part(state, BYTES(1), part, lengths[i]);
        said[1] = state[0];
        said[2] = state[1];
    }
    return cms_end(kind, state, BYTES(1), NUMBERS(5));
}

/* Tries the watch: reads the byte at a place from a slice's start, and writes it when told a number. */
static uint64_t call_touch(void) {
    volatile uint8_t *at = lent[0].start + (int64_t)given;
    uint8_t was = *at;
    if (also) *at = (uint8_t)also;
    return was;
}

/* Tries the painted stack: takes so many bytes of it, and touches the lowest. */
static uint64_t call_dig(void) {
    volatile uint8_t dug[given];
    dug[0] = 1;
    return dug[0];
}

/* The first parameter is a kind, pair or profile. */
static int is_by_kind(uint64_t which) {
    if (which == END || which == ARRIVE || which == BOARD_POST || which == TWO_RESULTS) return 1;
    return which != POST && which != TOUCH && which != DIG && which < DAY_READ;
}

/* Lends what the call says, and tells what is to be called with it. */
static function prepared(uint64_t which) {
    if (is_by_kind(which)) kind = (uint32_t)number();
    switch (which) {
    case READ: slice(); an_answer(5); return call_read;
    case WRITE:
        for (int i = 0; i < 5; i++) slice();
        to_write(slice()); an_answer(5);
        return call_write;
    case PAIR: slice(); slice(); to_write(slice()); to_write(slice()); an_answer(5); return call_pair;
    case OUTCOME: slice(); slice(); given = number(); an_answer(10); return call_outcome;
    case WALK: slice(); given = number(); an_answer(8); return call_walk;
    case POST: slice(); slice(); to_write(slice()); return call_post;
    case APART: slice(); to_write(slice()); an_answer(6); return call_apart;
    case EVIDENCE_READ: slice(); an_answer(5); return call_evidence_read;
    case EVIDENCE_PART: slice(); given = number(); an_answer(8); return call_evidence_part;
    case EVIDENCE_WRITE:
        for (int i = 0; i < 3; i++) slice();
        to_write(slice()); an_answer(6);
        return call_evidence_write;
    case EVIDENCE_COMPARE: slice(); slice(); an_answer(5); return call_evidence_compare;
    case DAY_READ: slice(); an_answer(8); return call_day_read;
    case DAY_BODY: slice(); given = number(); an_answer(10); return call_day_body;
    case DAY_WRITE:
        for (int i = 0; i < 3; i++) slice();
        to_write(slice()); an_answer(8);
        return call_day_write;
    case PART: to_write(slice()); to_write(slice()); slice(); return call_part;
    case END: to_write(slice()); to_write(slice()); an_answer(5); return call_end;
    case ARRIVE:
        to_write(slice()); to_write(slice()); slice(); slice(); to_write(slice()); an_answer(5);
        return call_arrive;
    case BOARD_POST: slice(); slice(); board(); to_write(slice()); an_answer(5); return call_board_post;
    case WRITE_EB12: slice(); slice(); to_write(slice()); an_answer(6); return call_write_eb12;
    case TWO_RESULTS: slice(); slice(); slice(); an_answer(7); return call_two_results;
    case SIGNED: slice(); return call_signed;
    case TOUCH: slice(); given = number(); also = number(); return call_touch;
    case DIG: given = number(); return call_dig;
    default: fail("the bridge was asked for a function that it does not know\n"); return NULL;
    }
}

/* ---- stacks, each of which ends where no memory may be touched: a painted one, and that of a thread */

static uint64_t *painted;
static uint8_t *of_thread;
#define PAINT UINT64_C(0x7061696e7465643a)
#define WORDS (STACK / sizeof(uint64_t))

static uint8_t *a_stack(size_t length) {
    uint8_t *all = mmap(NULL, GUARD + length, PROT_READ | PROT_WRITE, MAP_PRIVATE | MAP_ANONYMOUS, -1, 0);
    if (all == MAP_FAILED || mprotect(all, GUARD, PROT_NONE)) fail("the bridge has no memory for a stack\n");
    return all + GUARD;
}

static void make_stacks(void) {
    painted = (uint64_t *)(void *)a_stack(STACK);
    of_thread = a_stack(THREAD);
}

/* Calls with another stack, whose top is given, and comes back. */
uint64_t bridge_on_stack(function call, void *top);
__asm__(".text\n"
        ".type bridge_on_stack, @function\n"
        "bridge_on_stack:\n"
        "    pushq %rbp\n"
        "    movq %rsp, %rbp\n"
        "    movq %rsi, %rsp\n"
        "    callq *%rdi\n"
        "    movq %rbp, %rsp\n"
        "    popq %rbp\n"
        "    retq\n"
        ".size bridge_on_stack, . - bridge_on_stack\n");

/* What the call returns, and how many bytes there are from the lowest that it touched to the stack's top. */
static uint64_t called_on_paint(function call, uint64_t *touched) {
    for (size_t i = 0; i < WORDS; i++) painted[i] = PAINT + i;
    uint64_t returned = bridge_on_stack(call, painted + WORDS);
    size_t untouched = 0;
    while (untouched < WORDS && painted[untouched] == PAINT + untouched) untouched++;
    *touched = (WORDS - untouched) * sizeof(uint64_t);
    return returned;
}

static function for_thread;
static uint64_t returned_by_thread;

static void *run(void *none) {
    returned_by_thread = for_thread();
    return none;
}

/* What the call returns on a thread whose stack is all that it has: what belongs to the thread itself lies there, too. */
static uint64_t called_on_thread(function call) {
    pthread_t thread;
    pthread_attr_t attributes;
    for_thread = call;
    if (pthread_attr_init(&attributes) || pthread_attr_setstack(&attributes, of_thread, THREAD) ||
        pthread_create(&thread, &attributes, run, NULL) || pthread_join(thread, NULL))
        fail("the bridge cannot run a thread\n");
    pthread_attr_destroy(&attributes);
    return returned_by_thread;
}

static void answer_call(void) {
    uint64_t which = number(), touched = 0;
    int paint = which == PAINTED, thread = which == THREADED;
    lent_count = 0;
    function call = prepared(paint || thread ? number() : which);
    uint64_t returned = paint ? called_on_paint(call, &touched) : thread ? called_on_thread(call) : call();
    answer_number(changed());
    answer_number(returned);
    for (size_t i = 0; i < lent_count; i++) {
        if (lent[i].is_board) answer_with_board(&lent[i]);
        else if (!lent[i].before) answer_with(lent[i].start, lent[i].length);
    }
    if (paint) answer_number(touched);
}

int main(void) {
    uint8_t *calls = NULL;
    uint64_t length = THERE;
    make_places();
    make_stacks();
    put(&length, sizeof length);
    while (get(&length, sizeof length)) {
        calls = room(calls, length + 1);
        if (!get(calls, length)) fail("the bridge was sent half a batch\n");
        answers_length = 0;
        answer_number(0);
        for (call = calls, calls_end = calls + length; call < calls_end;) answer_call();
        length = answers_length - sizeof length;
        memcpy(answers, &length, sizeof length);
        put(answers, answers_length);
    }
    return 0;
}
