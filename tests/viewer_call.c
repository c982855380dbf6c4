/* Calls each function of the library from C, meadowsink_read as the sheet viewer does, and checks each answer and every byte that must stay. */
#include <stdio.h>
#include <string.h>
#include "../include/meadowsink.h"

static const uint8_t book_t[] = {1, 3, 3, 3, 0, 0, 1, 3, 3, 1, 1, 1, 0, 64, 0, 0, 65, 0, 0, 0, 66, 0, 48, 57, 42, 42, 47, 47, 2, 1, 1, 2, 2, 2, 2, 1, 2};
static const uint16_t numbers[] = {259, 260, 258, 56, 47, 258, 52, 42, 258, 50};
static uint8_t chart[4096];
static uint8_t listing[70000];
static uint8_t page[1000];
static uint8_t chain[100];
static int failures;

static void expect(int holds, const char *what) {
    if (!holds) {
        printf("failed: %s\n", what);
        failures++;
    }
}

static int untouched(const uint8_t *area, size_t from, size_t to, uint8_t byte) {
    for (size_t i = from; i < to; i++)
        if (area[i] != byte) return 0;
    return 1;
}

/* The bytes of the listing of 8/4*2. */
static void list(uint8_t *bytes) {
    for (int i = 0; i < 10; i++) {
        bytes[2 * i] = numbers[i] % 256;
        bytes[2 * i + 1] = numbers[i] / 256;
    }
}

/* ---- checking a grammar */

static void check(void) {
    uint8_t book[sizeof book_t];
    memcpy(book, book_t, sizeof book);
    expect(meadowsink_check(book, sizeof book) == 0, "book T is accepted");
    expect(meadowsink_check_place(book, sizeof book) == 0, "no place if accepted");
    expect(meadowsink_check(book, 5) == 4 * 1 + 3, "1: five bytes");
    expect(meadowsink_check_place(book, 5) == 5, "1: the place is the length");
    book[34] = 9;
    expect(meadowsink_check(book, sizeof book) == 4 * 7 + 3, "7: kind 9");
    expect(meadowsink_check_place(book, sizeof book) == 34, "7: the place of the kind");
}

/* ---- the conflict question */

static void conflict(void) {
    expect(meadowsink_conflict(book_t, sizeof book_t, 1, 2, 2) == 1, "a conflict: left, last");
    expect(meadowsink_conflict(book_t, sizeof book_t, 1, 0, 2) == 0, "no conflict: left, first");
    expect(meadowsink_conflict(book_t, sizeof book_t, 0, 0, 1) == 0, "no conflict: a class");
    expect(meadowsink_conflict_place(book_t, sizeof book_t, 1, 2, 2) == 0, "no place if a conflict");
    expect(meadowsink_conflict(book_t, sizeof book_t, 1, 3, 1) == 4 * 7 + 3, "7: no such argument");
    expect(meadowsink_conflict_place(book_t, sizeof book_t, 1, 3, 1) == 0, "7: the place is 0");
    expect(meadowsink_conflict(book_t, 5, 1, 2, 2) == 4 * 1 + 3, "1: the book's refusals");
    expect(meadowsink_conflict_place(book_t, 5, 1, 2, 2) == 5, "1: with their places");
}

/* ---- what is behind a conflict */

enum { NONE, HIGHER, FIRST, LAST, CHAIN_MOST = 63 };

static uint64_t because(uint64_t line, uint64_t n) { return 4 * (4 * n + line) + 1; }

/* A digit; 1 to 4, two values with a sign between them; 5, a value; 6, three values. */
static const uint8_t ranked[] = {
    1, 7, 5, 14, 0, 0, 1, 3, 3, 3, 3, 1, 3, 1, 1, 1, 1, 1,                       /* counts */
    0, 64, 0, 0, 65, 0, 0, 0, 66, 0, 0, 0, 67, 0, 0, 0, 68, 0, 0, 0, 0, 0, 0, 0, /* rules */
    48, 57, 42, 42, 43, 43, 44, 44, 45, 45,                                      /* classes */
    2, 1, 1, 1, 1, 2, 1, 2, 3, 1, 3, 4, 1, 2, 4,                                 /* 0: left 1 1; higher 1 2, 2 3, 3 4, 2 4 */
    6, 2, 4, 4, 3, 3, 3, 2, 3, 7, 3, 4, 2, 3, 3,                                 /* 5: right 2..4; not together 3 3; right 2 3; not together 3..4; left 3 3 */
    4, 5, 5, 1, 5, 3, 7, 6, 6, 1, 6, 5,                                          /* 10: not together 5 5; higher 5 3; not together 6..6; higher 6 5 */
};

/* The line, and its declarations: for line HIGHER the whole chain. */
typedef struct {
    const char *what;
    size_t p, i, q;
    uint64_t line, n;
    uint8_t declarations[3];
} Reason;

/* Both calls write the chain and no byte more, and there is a reason exactly if there is a conflict. */
static void expect_reason(Reason r) {
    uint64_t answer = r.line == NONE ? 0 : because(r.line, r.line == HIGHER ? r.n : r.declarations[0]);
    size_t written = r.line == HIGHER ? r.n : 0;
    for (int place = 0; place < 2; place++) {
        memset(chain, 0x5a, sizeof chain);
        uint64_t given = (place ? meadowsink_reason_place : meadowsink_reason)(ranked, sizeof ranked, r.p, r.i, r.q, chain, sizeof chain);
        expect(given == (place ? 0 : answer), r.what);
        expect(memcmp(chain, r.declarations, written) == 0 && untouched(chain, written, sizeof chain, 0x5a), r.what);
    }
    expect(meadowsink_conflict(ranked, sizeof ranked, r.p, r.i, r.q) == answer % 4, r.what);
}

static void reason(void) {
    static const Reason reasons[] = {
        {"higher", 1, 0, 2, HIGHER, 1, {1}},
        {"higher, last", 1, 2, 2, HIGHER, 1, {1}},
        {"higher by two", 1, 0, 3, HIGHER, 2, {1, 2}},
        {"higher by two, where three would do", 1, 2, 4, HIGHER, 2, {1, 4}},
        {"higher, and right by a group", 2, 0, 3, HIGHER, 1, {2}},
        {"higher, and not together by a group", 3, 2, 4, HIGHER, 1, {3}},
        {"higher, an only argument", 5, 0, 3, HIGHER, 1, {11}},
        {"higher by two, an only argument", 5, 0, 4, HIGHER, 2, {11, 3}},
        {"higher, in the middle", 6, 1, 5, HIGHER, 1, {13}},
        {"higher by three, in the middle", 6, 1, 4, HIGHER, 3, {13, 11, 3}},
        {"first: a group before a pair, the other way round", 3, 0, 2, FIRST, 1, {5}},
        {"first: a group before not together", 3, 0, 3, FIRST, 1, {5}},
        {"first: the ends of a group", 4, 0, 2, FIRST, 1, {5}},
        {"first: a group of one, not together", 6, 0, 6, FIRST, 1, {12}},
        {"last: left", 1, 2, 1, LAST, 1, {0}},
        {"last: a pair before a group and left", 3, 2, 3, LAST, 1, {6}},
        {"last: a group, not together", 4, 2, 3, LAST, 1, {8}},
        {"last: a group of one, not together", 6, 2, 6, LAST, 1, {12}},
        {"no conflict: a class", 1, 1, 2, NONE, 0, {0}},
        {"no conflict: left, first", 1, 0, 1, NONE, 0, {0}},
        {"no conflict: right, last", 2, 2, 2, NONE, 0, {0}},
        {"no conflict: lower", 2, 0, 1, NONE, 0, {0}},
        {"no conflict: not together, in the middle", 6, 1, 6, NONE, 0, {0}},
        {"no conflict: not together, an only argument", 5, 0, 5, NONE, 0, {0}},
        {"no conflict: nothing is declared", 1, 0, 0, NONE, 0, {0}},
    };
    for (size_t k = 0; k < sizeof reasons / sizeof reasons[0]; k++) expect_reason(reasons[k]);
    expect(meadowsink_reason(book_t, sizeof book_t, 2, 2, 1, NULL, 0) == because(LAST, 2), "last: a pair, the other way round");
}

/* As much of a chain as fits; how long it is, is told all the same. */
static void shorten_chain(void) {
    static const uint8_t wanted[] = {13, 11, 3};
    for (size_t room = 0; room <= 3; room++) {
        memset(chain, 0x5a, sizeof chain);
        expect(meadowsink_reason(ranked, sizeof ranked, 6, 1, 4, chain, room) == because(HIGHER, 3), "room for a part of the chain");
        expect(memcmp(chain, wanted, room) == 0 && untouched(chain, room, sizeof chain, 0x5a), "that part of the chain");
    }
    expect(meadowsink_reason(ranked, sizeof ranked, 6, 1, 4, NULL, 0) == because(HIGHER, 3), "nowhere to write a chain");
    expect(meadowsink_reason_place(ranked, sizeof ranked, 6, 1, 4, NULL, 0) == 0, "which is no refusal");
}

static uint8_t stairs[1000];

/* 64 rules of a value and a sign of their own; the first rule of each pair is higher than the second. Gives the length of the book. */
static size_t fill_stairs(const uint8_t pairs[][2], uint8_t count) {
    size_t at = 6 + 64 + 64;
    memcpy(stairs, (const uint8_t[]){1, 64, 64, count, 0, 0}, 6);
    memset(stairs + 6, 2, 64);
    memset(stairs + 6 + 64, 1, 64);
    for (uint8_t r = 0; r < 64; r++, at += 3) memcpy(stairs + at, (const uint8_t[]){0, 0, 64 + r}, 3);
    for (uint8_t k = 0; k < 64; k++, at += 2) memset(stairs + at, k, 2);
    for (uint8_t d = 0; d < count; d++, at += 3) memcpy(stairs + at, (const uint8_t[]){1, pairs[d][0], pairs[d][1]}, 3);
    return at;
}

/* From 0 to 9 in two steps, by way of 4, or in four, by way of 1; whichever stands first. */
static void shortest_chain(void) {
    static const uint8_t late[][2] = {{0, 1}, {1, 2}, {2, 3}, {3, 9}, {0, 4}, {4, 9}}, early[][2] = {{0, 4}, {4, 9}, {0, 1}, {1, 2}, {2, 3}, {3, 9}};
    static const uint8_t mixed[][2] = {{3, 9}, {4, 9}, {2, 3}, {0, 4}, {1, 2}, {0, 1}};
    expect(meadowsink_reason(stairs, fill_stairs(late, 6), 0, 0, 9, chain, 2) == because(HIGHER, 2), "the shorter of two chains, the later");
    expect(chain[0] == 4 && chain[1] == 5, "its declarations, the last");
    expect(meadowsink_reason(stairs, fill_stairs(early, 6), 0, 0, 9, chain, 2) == because(HIGHER, 2), "the shorter of two chains, the earlier");
    expect(chain[0] == 0 && chain[1] == 1, "its declarations, the first");
    expect(meadowsink_reason(stairs, fill_stairs(mixed, 6), 0, 0, 9, chain, 2) == because(HIGHER, 2), "the shorter of two chains, in no order");
    expect(chain[0] == 3 && chain[1] == 1, "its declarations, among the others");
}

/* Each is higher than the next; the declarations stand in reverse. */
static void longest_chain(void) {
    static uint8_t pairs[CHAIN_MOST][2];
    for (uint8_t d = 0; d < CHAIN_MOST; d++) memcpy(pairs[d], (const uint8_t[]){62 - d, 63 - d}, 2);
    size_t length = fill_stairs(pairs, CHAIN_MOST);
    memset(chain, 0x5a, sizeof chain);
    expect(meadowsink_reason(stairs, length, 0, 0, 63, chain, sizeof chain) == because(HIGHER, CHAIN_MOST), "a chain of 63");
    for (uint8_t k = 0; k < CHAIN_MOST; k++) expect(chain[k] == 62 - k, "its declarations, from the last to the first");
    expect(untouched(chain, CHAIN_MOST, sizeof chain, 0x5a), "bytes beyond a chain of 63 stay");
    expect(meadowsink_reason(stairs, length, 63, 0, 0, chain, sizeof chain) == 0, "the lowest is higher than none");
}

/* T with 255 declarations: 1 right with itself, and then one that is left or higher. */
static void last_declaration(void) {
    static uint8_t book[28 + 3 * 255];
    memcpy(book, book_t, 28);
    book[3] = 255;
    for (size_t d = 0; d < 254; d++) memcpy(book + 28 + 3 * d, (const uint8_t[]){3, 1, 1}, 3);
    memcpy(book + 28 + 3 * 254, (const uint8_t[]){2, 1, 1}, 3);
    expect(meadowsink_reason(book, sizeof book, 1, 0, 1, chain, sizeof chain) == because(FIRST, 0), "the first of 254");
    expect(meadowsink_reason(book, sizeof book, 1, 2, 1, chain, sizeof chain) == because(LAST, 254), "declaration 254");
    memcpy(book + 28 + 3 * 254, (const uint8_t[]){1, 1, 2}, 3);
    expect(meadowsink_reason(book, sizeof book, 1, 0, 2, chain, sizeof chain) == because(HIGHER, 1) && chain[0] == 254, "declaration 254 in a chain");
}

static void expect_reason_refused(const uint8_t *book, size_t length, size_t p, size_t i, size_t q, uint64_t number, uint64_t place, const char *what) {
    memset(chain, 0x5a, sizeof chain);
    expect(meadowsink_reason(book, length, p, i, q, chain, sizeof chain) == 4 * number + 3, what);
    expect(meadowsink_reason_place(book, length, p, i, q, chain, sizeof chain) == place, what);
    expect(untouched(chain, 0, sizeof chain, 0x5a), "a refusal leaves the chain");
}

static void refuse_reason(void) {
    uint8_t wrong[sizeof ranked];
    const size_t last = sizeof ranked - 3, high = (size_t)1 << 32;
    expect_reason_refused(ranked, sizeof ranked, 7, 0, 1, 7, 0, "7: no such rule above");
    expect_reason_refused(ranked, sizeof ranked, 1, 3, 2, 7, 0, "7: no such argument");
    expect_reason_refused(ranked, sizeof ranked, 1, 0, 7, 7, 0, "7: no such rule below");
    expect_reason_refused(ranked, sizeof ranked, 257, 0, 2, 7, 0, "7: nor if high bits could be lost");
    expect_reason_refused(ranked, sizeof ranked, 1, 256, 2, 7, 0, "7: of an argument");
    expect_reason_refused(ranked, sizeof ranked, 1, 0, high + 2, 7, 0, "7: of the rule below");
    expect_reason_refused(ranked, sizeof ranked, SIZE_MAX, SIZE_MAX, SIZE_MAX, 7, 0, "7: of all");
    expect_reason_refused(ranked, 5, 9, 9, 9, 1, 5, "1: before what is asked");
    expect_reason_refused(ranked, sizeof ranked - 1, 1, 0, 2, 4, sizeof ranked - 1, "4: a byte less");
    memcpy(wrong, ranked, sizeof wrong);
    wrong[last] = 8;
    expect_reason_refused(wrong, sizeof wrong, 1, 0, 2, 7, last, "7: no kind, with its place");
    expect_reason_refused(wrong, sizeof wrong, 7, 0, 2, 7, last, "7: of the book, before that of no such rule");
    memcpy(wrong + last, (const uint8_t[]){1, 4, 1}, 3);
    expect_reason_refused(wrong, sizeof wrong, 1, 0, 2, 9, 1, "9: a circle");
}

/* ---- writing a character class grammar */

static const char flat_t[] = "[\\48-\\57] -> [\\258]\n"
                             "[\\258-\\260] [\\42] [\\258] -> [\\259]\n"
                             "[\\258-\\260] [\\47] [\\258] -> [\\260]\n";

static void flat(void) {
    size_t length = strlen(flat_t);
    uint8_t out[200];
    memset(out, 0x5a, sizeof out);
    expect(meadowsink_flat(book_t, sizeof book_t, out, length - 1) == 4 * 21 + 3, "21: one byte short");
    expect(meadowsink_flat_place(book_t, sizeof book_t, out, length - 1) == length, "21: the place is how many bytes");
    expect(meadowsink_flat_place(book_t, sizeof book_t, out, 0) == length, "21: no room at all");
    expect(meadowsink_flat(book_t, 5, out, sizeof out) == 4 * 1 + 3, "1: the book's refusals");
    expect(meadowsink_flat_place(book_t, 5, out, sizeof out) == 5, "1: with their places");
    expect(untouched(out, 0, sizeof out, 0x5a), "a refusal changes nothing");
    expect(meadowsink_flat(book_t, sizeof book_t, out, sizeof out) == 4 * length + 1, "written");
    expect(memcmp(out, flat_t, length) == 0, "the text");
    expect(untouched(out, length, sizeof out, 0x5a), "bytes beyond the text stay");
    memset(out, 0x5a, sizeof out);
    expect(meadowsink_flat_place(book_t, sizeof book_t, out, sizeof out) == 0, "no place if written");
    expect(memcmp(out, flat_t, length) == 0 && untouched(out, length, sizeof out, 0x5a), "the call for the place writes, too");
}

/* ---- checking a listing */

static uint64_t judge(const char *text, const uint8_t *bytes, size_t length) {
    return meadowsink_check_listing(book_t, sizeof book_t, (const uint8_t *)text, strlen(text), bytes, length);
}

static void check_listing(void) {
    uint8_t bytes[22] = {0};
    list(bytes);
    expect(judge("8/4*2", bytes, 20) == 0, "the listing is right");
    expect(judge("8/4*3", bytes, 20) == 4 * 9 + 1, "wrong: another character");
    expect(judge("8/4*2", bytes, 18) == 4 * 9 + 1, "wrong: a number is missing");
    expect(judge("8/4*2", bytes, 22) == 4 * 10 + 1, "wrong: a number too many");
    expect(judge("8/4*22", bytes, 20) == 4 * 10 + 1, "wrong: text is left over");
    bytes[0] = 258 % 256;
    expect(judge("8/4*2", bytes, 20) == 4 * 1 + 1, "wrong: another rule");
    expect(judge("8/4*2", bytes, 19) == 4 * 11 + 3, "11: an odd count of bytes");
    expect(meadowsink_check_listing_place(book_t, sizeof book_t, (const uint8_t *)"8", 1, bytes, 19) == 19, "11: the place is the count");
    expect(meadowsink_check_listing_place(book_t, sizeof book_t, (const uint8_t *)"8", 1, bytes, 20) == 0, "no place if wrong");
    expect(meadowsink_check_listing(book_t, 5, (const uint8_t *)"8", 1, bytes, 20) == 4 * 1 + 3, "1: the book's refusals");
    expect(meadowsink_check_listing_place(book_t, 5, (const uint8_t *)"8", 1, bytes, 20) == 5, "1: with their places");
}

/* ---- reading a text */

/* Garbage in both areas, so that a byte that stays can be told from one that was written. */
static void fill(void) {
    memset(chart, 0xa5, sizeof chart);
    memset(listing, 0x5a, sizeof listing);
}

static uint64_t call(const char *text, size_t chart_length, size_t listing_length) {
    fill();
    return meadowsink_read(book_t, sizeof book_t, (const uint8_t *)text, strlen(text), chart, chart_length, listing, listing_length);
}

static uint64_t call_place(const char *text, size_t chart_length, size_t listing_length) {
    fill();
    return meadowsink_read_place(book_t, sizeof book_t, (const uint8_t *)text, strlen(text), chart, chart_length, listing, listing_length);
}

static void read_text(void) {
    static uint8_t wanted[20];
    list(wanted);
    expect(call("8/4*2", 4096, sizeof listing) == 4 * 10 + 1, "one, ten numbers");
    expect(memcmp(listing, wanted, 20) == 0, "the listing");
    expect(untouched(listing, 20, sizeof listing, 0x5a), "bytes beyond the listing stay");
    expect(untouched(chart, 210, sizeof chart, 0xa5), "bytes beyond the chart stay");
    expect(chart[0] == 1 && chart[1] == 0, "the chart's first bytes");

    expect(call("", 4096, sizeof listing) == 0, "none");
    expect(untouched(listing, 0, sizeof listing, 0x5a), "after none the listing stays");

    expect(call("8/4*2", 209, sizeof listing) == 4 * 20 + 3, "20: a chart of 209");
    expect(untouched(chart, 0, sizeof chart, 0xa5) && untouched(listing, 0, sizeof listing, 0x5a), "20 changes nothing");
    expect(call("8/4*2", 210, 20) == 4 * 10 + 1, "210 and an exact fit are enough");

    expect(call("8/4*2", 4096, 7) == 4 * 22 + 3, "22: seven bytes");
    expect(memcmp(listing, wanted, 6) == 0, "22: the first three numbers");
    expect(untouched(listing, 6, sizeof listing, 0x5a), "22: the odd byte stays");
    expect(call("8/4*2", 4096, 0) == 4 * 22 + 3, "22: no room at all");

    expect(meadowsink_read(book_t, 5, (const uint8_t *)"8", 1, chart, sizeof chart, listing, sizeof listing) == 4 * 1 + 3, "1: five bytes");

    static const uint8_t loop[] = {1, 2, 1, 0, 0, 0, 1, 1, 1, 0, 64, 0, 0, 56, 56};
    memset(listing, 0x5a, sizeof listing);
    expect(meadowsink_read(loop, sizeof loop, (const uint8_t *)"8", 1, chart, sizeof chart, listing, sizeof listing) == 2, "several, by a loop");
    expect(untouched(listing, 0, sizeof listing, 0x5a), "after several the listing stays");
}

static void read_place(void) {
    static uint8_t wanted[20];
    list(wanted);
    expect(call_place("8/4*2", 209, sizeof listing) == 210, "20: the place is how many bytes");
    expect(untouched(chart, 0, sizeof chart, 0xa5) && untouched(listing, 0, sizeof listing, 0x5a), "20 changes nothing");
    expect(call_place("8/4*2", 4096, 7) == 3, "22: the place is how many numbers");
    expect(memcmp(listing, wanted, 6) == 0 && untouched(listing, 6, sizeof listing, 0x5a), "22: the first three numbers");
    expect(call_place("8/4*2", 4096, sizeof listing) == 0, "no place if one");
    expect(memcmp(listing, wanted, 20) == 0 && untouched(listing, 20, sizeof listing, 0x5a), "the call for the place writes, too");
    expect(chart[0] == 1 && untouched(chart, 210, sizeof chart, 0xa5), "and fills the chart");
    expect(meadowsink_read_place(book_t, 5, (const uint8_t *)"8", 1, chart, sizeof chart, listing, sizeof listing) == 5, "1: the book's places");
}

/* ---- flat texts */

/* A letter; and case (j): 8, or that or itself once more. */
static const char letter[] = "[\\97] -> [\\258]\n", loops[] = "[\\56] -> [\\258]\n[\\258-\\259] -> [\\259]\n";

static void expect_checked(const char *flat_text, size_t length, uint64_t answer, uint64_t place, const char *what) {
    expect(meadowsink_check_flat((const uint8_t *)flat_text, length) == answer, what);
    expect(meadowsink_check_flat_place((const uint8_t *)flat_text, length) == place, what);
}

static void check_flat(void) {
    static const struct {
        const char *flat_text;
        uint64_t number, place;
    } refusals[] = {
        {"", 27, 0},
        {"\n", 27, 0},
        {"[\\48\\49]", 27, 5},                  /* 48 and 49 would be one range, and no number from 50 to 255 begins with 4 */
        {"[\\48-\\48]", 27, 7},                 /* nor has a number from 49 to 255 the digits 48 first */
        {"[\\048]", 27, 3},                     /* a zero in front */
        {"[\\256]", 27, 4},                     /* no character and no number of a line */
        {"[\\322]", 27, 4},
        {"[\\97\\258]", 27, 7},                 /* a character, and 258 where only 255 is left */
        {"[\\258\\97]", 27, 6},                 /* from 260 on each begins with 2 or 3 */
        {"[\\255\\", 27, 5},                    /* nothing is above */
        {"[\\255-", 27, 5},
        {"[\\321-", 27, 5},
        {"[]->", 27, 2},                        /* no space */
        {"[] [] [] [] [] [] [] [] [", 27, 24},  /* a ninth argument */
        {"-> [\\259]\n", 27, 7},                /* not the line's own number */
        {"-> [\\258] \n", 27, 9},
        {"-> [\\258]\n-> [\\258]\n", 27, 17},
        {"-> [\\258]\n\n", 27, 10},             /* an empty line */
        {"[\\259] -> [\\258]", 27, 16},         /* cut short, before 28 */
        {"[\\259] -> [\\258]\n", 28, 259},
        {"[\\321] -> [\\258]\n", 28, 321},
        {"[\\258-\\321] -> [\\258]\n", 28, 259},
        {"[] [\\300] [\\270] -> [\\258]\n", 28, 300},
    };
    expect_checked(letter, strlen(letter), 4 * 1 + 1, 0, "one line");
    expect_checked(flat_t, strlen(flat_t), 4 * 3 + 1, 0, "the three lines of T");
    for (size_t n = 0; n < strlen(letter); n++) expect_checked(letter, n, 4 * 27 + 3, n, "27: a line that is cut short");
    for (size_t i = 0; i < sizeof refusals / sizeof refusals[0]; i++)
        expect_checked(refusals[i].flat_text, strlen(refusals[i].flat_text), 4 * refusals[i].number + 3, refusals[i].place, refusals[i].flat_text);
}

/* Lines without arguments, ten bytes each. */
static void count_lines(void) {
    static char lines[65 * 10 + 1];
    for (int r = 0; r < 65; r++) sprintf(lines + 10 * r, "-> [\\%d]\n", 258 + r);
    expect_checked(lines, 64 * 10, 4 * 64 + 1, 0, "64 lines");
    expect_checked(lines, 65 * 10, 4 * 27 + 3, 640, "27: a line too many");
}

typedef uint64_t FlatCall(const uint8_t *, size_t, const uint8_t *, size_t, const uint8_t *, size_t, uint8_t *, size_t, uint8_t *, size_t);

static uint64_t call_flat(FlatCall *operation, const char *flat_text, const char *roots, size_t roots_length, const char *text) {
    fill();
    return operation((const uint8_t *)flat_text, strlen(flat_text), (const uint8_t *)roots, roots_length, (const uint8_t *)text, strlen(text), chart,
                     sizeof chart, listing, sizeof listing);
}

/* For one line of one argument the chart has (1 + 1) * 2 * 3 / 2 bytes. */
static void read_letter(FlatCall *operation, uint64_t one, const char *what) {
    static const uint8_t entries[] = {1, 0, 1, 0, 1, 0}, numbers_of_a[] = {258 % 256, 258 / 256, 97, 0};
    expect(call_flat(operation, letter, "\1", 1, "a") == one, what);
    expect(memcmp(listing, numbers_of_a, 4) == 0 && untouched(listing, 4, sizeof listing, 0x5a), "the listing of a, and bytes beyond it");
    expect(memcmp(chart, entries, 6) == 0 && untouched(chart, 6, sizeof chart, 0xa5), "the chart of a, and bytes beyond it");
}

static void read_flat(void) {
    static uint8_t other[sizeof chart];
    read_letter(meadowsink_read_flat, 4 * 2 + 1, "one, two numbers");
    read_letter(meadowsink_read_flat_place, 0, "no place if one");
    expect(call_flat(meadowsink_read_flat, letter, "\377", 1, "a") == 4 * 2 + 1, "any byte but 0 is yes");
    expect(call_flat(meadowsink_read_flat, letter, "\0", 1, "a") == 0, "none: the line isn't allowed at the root");
    expect(call_flat(meadowsink_read_flat, letter, "", 0, "a") == 0, "none: no line is");
    expect(untouched(chart, 6, sizeof chart, 0xa5) && chart[4] == 1, "the chart is filled all the same");
    expect(call_flat(meadowsink_read_flat, letter, "\1", 1, "b") == 0, "none: another letter");
    expect(untouched(listing, 0, sizeof listing, 0x5a), "after none the listing stays");
    expect(call_flat(meadowsink_read_flat, loops, "\1\1", 2, "8") == 2, "several, by a loop");
    expect(untouched(listing, 0, sizeof listing, 0x5a), "after several the listing stays");
    expect(call_flat(meadowsink_read_flat, loops, "\1", 1, "8") == 4 * 2 + 1, "one, if the loop isn't allowed at the root");
    expect(call_flat(meadowsink_read_flat_place, loops, "\1\1", 2, "8") == 0, "no place if several");

    expect(call("8/4*2", sizeof chart, sizeof listing) == 4 * 10 + 1, "by T: one");
    memcpy(other, chart, sizeof chart);
    expect(call_flat(meadowsink_read_flat, flat_t, "\1\1\1", 3, "8/4*2") == 4 * 10 + 1, "by its flat text: one");
    uint8_t wanted[20];
    list(wanted);
    expect(memcmp(chart, other, sizeof chart) == 0, "the chart is that of the book");
    expect(memcmp(listing, wanted, 20) == 0 && untouched(listing, 20, sizeof listing, 0x5a), "and so is the listing");
}

/* What is lent in each of these: a flat text, bytes for the root, a text, and so many bytes of the chart. */
typedef struct {
    const char *what, *flat_text, *roots;
    size_t roots_length;
    const char *text;
    size_t chart_length;
    uint64_t number, place;
} FlatRefusal;

static void expect_flat_refused(FlatRefusal r) {
    const uint8_t *flat_text = (const uint8_t *)r.flat_text, *roots = (const uint8_t *)r.roots, *text = (const uint8_t *)r.text;
    size_t length = strlen(r.flat_text), text_length = strlen(r.text);
    fill();
    expect(meadowsink_read_flat(flat_text, length, roots, r.roots_length, text, text_length, chart, r.chart_length, listing, 0) == 4 * r.number + 3, r.what);
    expect(meadowsink_read_flat_place(flat_text, length, roots, r.roots_length, text, text_length, chart, r.chart_length, listing, 0) == r.place, r.what);
    expect(untouched(chart, 0, sizeof chart, 0xa5) && untouched(listing, 0, sizeof listing, 0x5a), "a refusal changes nothing");
}

static void refuse_flat(void) {
    static char overlong[202], many[65], few[64];
    memset(overlong, 'a', 201);
    many[0] = many[64] = 1;
    few[0] = few[2] = few[63] = 1;
    const FlatRefusal refusals[] = {
        {"27: no flat text", "", "\1", 1, "a", 6, 27, 0},
        {"27: two ranges that touch", "[\\48\\49] -> [\\258]\n", "\1", 1, "a", 6, 27, 5},
        {"28: in a class", "[\\259] -> [\\258]\n", "\1", 1, "a", 6, 28, 259},
        {"28: at the root", letter, "\1\1", 2, "a", 6, 28, 259},
        {"28: the lowest at the root", letter, few, 64, "a", 6, 28, 260},
        {"10: a text of 201 bytes", letter, "\1", 1, overlong, 6, 10, 201},
        {"20: one byte short", letter, "\1", 1, "a", 5, 20, 6},
        {"20: an entry behind the last is ignored", letter, many, 65, "a", 5, 20, 6},
        /* two faults at once */
        {"27 before 28", "[\\259] -> [\\258]", "\1\1", 2, "a", 6, 27, 16},
        {"27 before 10", "-", "\1", 1, overlong, 6, 27, 1},
        {"27 before 20", "-", "\1", 1, "a", 0, 27, 1},
        {"28 in a class before the root", "[\\300] -> [\\258]\n", "\1\1", 2, "a", 6, 28, 300},
        {"28 before 10", letter, "\1\1", 2, overlong, 6, 28, 259},
        {"28 in a class before 10", "[\\259] -> [\\258]\n", "\1", 1, overlong, 6, 28, 259},
        {"28 before 20", letter, "\1\1", 2, "a", 0, 28, 259},
        {"10 before 20", letter, "\1", 1, overlong, 0, 10, 201},
    };
    for (size_t i = 0; i < sizeof refusals / sizeof refusals[0]; i++) expect_flat_refused(refusals[i]);
}

/* The listing of a has four bytes. */
static void shorten_listing(void) {
    const uint8_t *lent = (const uint8_t *)letter;
    const uint8_t root = 1, a = 'a';
    fill();
    expect(meadowsink_read_flat(lent, strlen(letter), &root, 1, &a, 1, chart, 6, listing, 3) == 4 * 22 + 3, "22: three bytes");
    expect(meadowsink_read_flat_place(lent, strlen(letter), &root, 1, &a, 1, chart, 6, listing, 3) == 1, "22: the place is how many numbers");
    expect(listing[0] == 258 % 256 && listing[1] == 258 / 256 && untouched(listing, 2, sizeof listing, 0x5a), "22: the first number; the odd byte stays");
    expect(chart[4] == 1 && untouched(chart, 6, sizeof chart, 0xa5), "22: the chart is filled");
    expect(meadowsink_read_flat(lent, strlen(letter), &root, 1, &a, 1, chart, 6, listing, 4) == 4 * 2 + 1, "6 and an exact fit are enough");
}

/*
 * Each line has eight arguments, all of the next line, but for the last of the first, which is the last line, and that has none: trees of 1, 9, 73, 585 and
 * 4,681 numbers, and at the root 1 + 7 * 4,681 + 1, one too many for 65,536 bytes.
 */
static void exceed_listing(void) {
    static char tower[5 * 66 + 10 + 1];
    char *at = tower;
    for (int r = 0; r < 5; r++) {
        for (int i = 0; i < 8; i++) at += sprintf(at, "[\\%d] ", r == 0 && i == 7 ? 263 : 259 + r);
        at += sprintf(at, "-> [\\%d]\n", 258 + r);
    }
    sprintf(at, "-> [\\263]\n");
    expect(call_flat(meadowsink_read_flat, tower, "\1", 1, "") == 4 * 22 + 3, "22: 32,769 numbers");
    expect(listing[65534] == 263 - 256 && listing[65535] == 1 && untouched(listing, 65536, sizeof listing, 0x5a), "22: no more than 65,536 bytes are used");
    expect(call_flat(meadowsink_read_flat_place, tower, "\1", 1, "") == 32768, "22: 32,768 are written");
    expect(call_flat(meadowsink_read_flat, tower, "\0\1", 2, "") == 4 * 4681 + 1, "one, 4,681 numbers");
}

/* ---- the page, and the text under a number */

enum { LINE = 73, PAGE = 10 * LINE };

/* The page of 8/4*2: 258 is a digit, 259 a product and 260 a quotient. */
static void lay_out(char *bytes) {
    static const char *const lines[] = {
        "   0  259   0   5 8/4*2",
        "   1  260   0   3 8/4",
        "   2  258   0   1 8",
        "   3   56   0   1 8",
        "   2   47   1   2 /",
        "   2  258   2   3 4",
        "   3   52   2   3 4",
        "   1   42   3   4 *",
        "   1  258   4   5 2",
        "   2   50   4   5 2",
    };
    for (int i = 0; i < 10; i++) sprintf(bytes + LINE * i, "%-72s\n", lines[i]);
}

typedef uint64_t PageCall(const uint8_t *, size_t, const uint8_t *, size_t, const uint8_t *, size_t, uint8_t *, size_t);

/* The page of the listing that is there, over garbage. */
static uint64_t call_page(PageCall *operation, const char *text, size_t listing_length, size_t page_length) {
    memset(page, 0x5a, sizeof page);
    return operation(book_t, sizeof book_t, (const uint8_t *)text, strlen(text), listing, listing_length, page, page_length);
}

static void write_page(void) {
    static char wanted[PAGE + 1];
    lay_out(wanted);
    list(listing);
    expect(call_page(meadowsink_page, "8/4*2", 20, PAGE) == 4 * 730 + 1, "an exact fit is enough for the page");
    expect(memcmp(page, wanted, PAGE) == 0 && untouched(page, PAGE, sizeof page, 0x5a), "the page");
    expect(call_page(meadowsink_page, "8/4*2", 20, sizeof page) == 4 * 730 + 1, "room beyond the page");
    expect(memcmp(page, wanted, PAGE) == 0 && untouched(page, PAGE, sizeof page, 0x5a), "bytes beyond the page stay");
    expect(call_page(meadowsink_page_place, "8/4*2", 20, sizeof page) == 0, "no place if the page is written");
    expect(memcmp(page, wanted, PAGE) == 0 && untouched(page, PAGE, sizeof page, 0x5a), "the call for the place writes the page, too");
}

static uint64_t under(size_t index) {
    return meadowsink_text_under(book_t, sizeof book_t, (const uint8_t *)"8/4*2", 5, listing, 20, index);
}

static void text_under(void) {
    static const char text[] = "8/4*2";
    static const struct {
        uint64_t start, end;
        const char *spelled;
    } parts[] = {{0, 5, "8/4*2"}, {0, 3, "8/4"}, {0, 1, "8"}, {0, 1, "8"}, {1, 2, "/"}, {2, 3, "4"}, {2, 3, "4"}, {3, 4, "*"}, {4, 5, "2"}, {4, 5, "2"}};
    list(listing);
    for (size_t i = 0; i < 10; i++) {
        uint64_t places = under(i);
        expect(places == 256 * parts[i].start + parts[i].end, "the places of the text under a number");
        expect(strncmp(text + places / 256, parts[i].spelled, places % 256 - places / 256) == 0, "the text under a number");
    }
    expect(under(10) == 0, "nothing is under a number beyond the last");
    expect(under(256) == 0 && under((size_t)1 << 32) == 0 && under(SIZE_MAX / 2 + 2) == 0 && under(SIZE_MAX) == 0, "nor if high bits could be lost");
}

/* What is lent in each of these: so many bytes of book T, a text, so many bytes of the listing of 8/4*2, with zeros behind it, and so many of a page. */
typedef struct {
    const char *what;
    size_t book_length;
    const char *text;
    size_t listing_length, page_length;
    uint64_t number, place;
} Refusal;

/* Both calls refuse and change nothing; under number 4 is `/` if only the page is too short, and else nothing. */
static void expect_refused(Refusal r) {
    const uint8_t *text = (const uint8_t *)r.text;
    size_t length = strlen(r.text);
    memset(page, 0x5a, sizeof page);
    expect(meadowsink_page(book_t, r.book_length, text, length, listing, r.listing_length, page, r.page_length) == 4 * r.number + 3, r.what);
    expect(meadowsink_page_place(book_t, r.book_length, text, length, listing, r.listing_length, page, r.page_length) == r.place, r.what);
    expect(untouched(page, 0, sizeof page, 0x5a), "a refusal changes nothing");
    uint64_t part = meadowsink_text_under(book_t, r.book_length, text, length, listing, r.listing_length, 4);
    expect(part == (r.number == 24 ? 256 * 1 + 2 : 0), r.what);
}

static void refuse_page(void) {
    static char overlong[202];
    memset(overlong, '8', 201);
    const Refusal refusals[] = {
        {"1: five bytes of a book", 5, "8/4*2", 20, PAGE, 1, 5},
        {"4: a book of a byte less", sizeof book_t - 1, "8/4*2", 20, PAGE, 4, 36},
        {"10: a text of 201 bytes", sizeof book_t, overlong, 20, PAGE, 10, 201},
        {"11: an odd count of bytes", sizeof book_t, "8/4*2", 19, PAGE, 11, 19},
        {"11: a listing over 8,192 bytes", sizeof book_t, "8/4*2", 8194, PAGE, 11, 8194},
        {"23: another character", sizeof book_t, "8/4*3", 20, PAGE, 23, 9},
        {"23: a number is missing", sizeof book_t, "8/4*2", 18, PAGE, 23, 9},
        {"23: a number too many", sizeof book_t, "8/4*2", 22, PAGE, 23, 10},
        {"23: text is left over", sizeof book_t, "8/4*22", 20, PAGE, 23, 10},
        {"23: no numbers", sizeof book_t, "8/4*2", 0, PAGE, 23, 0},
        {"23: 8,192 bytes are not too many", sizeof book_t, "8/4*2", 8192, PAGE, 23, 10},
        {"24: one byte short", sizeof book_t, "8/4*2", 20, PAGE - 1, 24, 730},
        {"24: no room at all", sizeof book_t, "8/4*2", 20, 0, 24, 730},
        /* two faults at once */
        {"1 before 10", 5, overlong, 20, PAGE, 1, 5},
        {"1 before 11", 5, "8/4*2", 19, PAGE, 1, 5},
        {"1 before 23", 5, "8/4*3", 20, PAGE, 1, 5},
        {"1 before 24", 5, "8/4*2", 20, 0, 1, 5},
        {"10 before 11", sizeof book_t, overlong, 19, PAGE, 10, 201},
        {"10 before 24", sizeof book_t, overlong, 20, 0, 10, 201},
        {"11 before 23", sizeof book_t, "8/4*3", 21, PAGE, 11, 21},
        {"11 before 24", sizeof book_t, "8/4*2", 8193, 0, 11, 8193},
        {"23 before 24", sizeof book_t, "8/4*3", 20, PAGE - 1, 23, 9},
    };
    memset(listing, 0, sizeof listing);
    list(listing);
    for (size_t i = 0; i < sizeof refusals / sizeof refusals[0]; i++) expect_refused(refusals[i]);
}

/* ---- which of two parses is lower */

enum { LENT_BOOK, LENT_TEXT, LENT_FIRST, LENT_SECOND, LENT_AREAS };

static struct {
    uint8_t bytes[9000];
    size_t length;
} lent[LENT_AREAS], kept[LENT_AREAS];

static void lend(int area, const void *bytes, size_t length) {
    memset(lent[area].bytes, 0, sizeof lent[area].bytes);
    memcpy(lent[area].bytes, bytes, length);
    lent[area].length = length;
}

static void lend_text(const char *text) { lend(LENT_TEXT, text, strlen(text)); }

/* Adds numbers to a parse. */
static void add(int area, const uint16_t *parse, size_t count) {
    for (size_t i = 0; i < count; i++) {
        lent[area].bytes[lent[area].length++] = parse[i] % 256;
        lent[area].bytes[lent[area].length++] = parse[i] / 256;
    }
}

static void lend_parse(int area, const uint16_t *parse, size_t count) {
    lend(area, "", 0);
    add(area, parse, count);
}

typedef uint64_t CompareCall(const uint8_t *, size_t, const uint8_t *, size_t, const uint8_t *, size_t, const uint8_t *, size_t);

/* Two parses of those that are lent, which may be the same one; nothing is changed. */
static uint64_t call_compare(CompareCall *operation, int first, int second) {
    memcpy(kept, lent, sizeof kept);
    uint64_t given = operation(lent[LENT_BOOK].bytes, lent[LENT_BOOK].length, lent[LENT_TEXT].bytes, lent[LENT_TEXT].length, lent[first].bytes,
                               lent[first].length, lent[second].bytes, lent[second].length);
    expect(memcmp(kept, lent, sizeof kept) == 0, "comparing changes nothing");
    return given;
}

/* In both orders, and each with itself. */
static void expect_compared(uint64_t value, const char *what) {
    uint64_t swapped = value == MEADOWSINK_BELOW ? MEADOWSINK_ABOVE : value == MEADOWSINK_ABOVE ? MEADOWSINK_BELOW : value;
    expect(call_compare(meadowsink_compare, LENT_FIRST, LENT_SECOND) == 4 * value + 1, what);
    expect(call_compare(meadowsink_compare_place, LENT_FIRST, LENT_SECOND) == 0, what);
    expect(call_compare(meadowsink_compare, LENT_SECOND, LENT_FIRST) == 4 * swapped + 1, what);
    expect(call_compare(meadowsink_compare_place, LENT_SECOND, LENT_FIRST) == 0, what);
    expect(call_compare(meadowsink_compare, LENT_FIRST, LENT_FIRST) == 4 * MEADOWSINK_EQUAL_COUNTS + 1, "the first with itself");
    expect(call_compare(meadowsink_compare, LENT_SECOND, LENT_SECOND) == 4 * MEADOWSINK_EQUAL_COUNTS + 1, "the second with itself");
}

/* Naturals and reals: 0, n is a natural; 1, a sum of naturals is one; 2, a natural is a real; 3, r is a real; 4, a sum of reals is one. */
static void lend_sums(const uint8_t declarations[][3], uint8_t count) {
    static const uint8_t sums[] = {
        2, 5, 3, 0, 1, 0, 1, 3, 1, 1, 3, 1, 1, 1,     /* counts */
        0, 64, 0, 0, 65, 0, 1, 0, 1, 66, 1, 1, 65, 1, /* rules */
        'n', 'n', '+', '+', 'r', 'r',                 /* classes */
    };
    lend(LENT_BOOK, sums, sizeof sums);
    memcpy(lent[LENT_BOOK].bytes + sizeof sums, declarations, 3u * count);
    lent[LENT_BOOK].bytes[3] = count;
    lent[LENT_BOOK].length += 3u * count;
}

/* The first adds naturals: 0 twice, 1 and 2 once. The second adds reals: 0 and 2 twice, 4 once. */
static void lend_both(void) {
    static const uint16_t naturals[] = {260, 259, 258, 'n', '+', 258, 'n'}, reals[] = {262, 260, 258, 'n', '+', 260, 258, 'n'};
    lend_text("n+n");
    lend_parse(LENT_FIRST, naturals, 7);
    lend_parse(LENT_SECOND, reals, 8);
}

static void compare_sums(void) {
    static const struct {
        const char *what;
        uint8_t count, declarations[3][3];
        uint64_t value;
    } cases[] = {
        {"neither: nothing is higher", 0, {{0}}, MEADOWSINK_NEITHER},
        {"neither: 1 is higher than 4, but nothing than 2", 1, {{1, 1, 4}}, MEADOWSINK_NEITHER},
        {"below: 4 is higher than 1", 1, {{1, 4, 1}}, MEADOWSINK_BELOW},
        {"above: 1 is higher than 2 and 4", 2, {{1, 1, 4}, {1, 1, 2}}, MEADOWSINK_ABOVE},
        {"below: 4 is higher than 1, through 3", 2, {{1, 3, 1}, {1, 4, 3}}, MEADOWSINK_BELOW},
        {"above: 1 is higher than 2, through 3", 3, {{1, 3, 2}, {1, 1, 4}, {1, 1, 3}}, MEADOWSINK_ABOVE},
        {"neither: 0 is higher than all, but used equally often", 3, {{1, 0, 1}, {1, 0, 2}, {1, 0, 4}}, MEADOWSINK_NEITHER},
        {"neither: 3 is higher than all, but not used", 3, {{1, 3, 1}, {1, 3, 2}, {1, 3, 4}}, MEADOWSINK_NEITHER},
        {"neither: 2 is higher than 4, but used more often, too", 1, {{1, 2, 4}}, MEADOWSINK_NEITHER},
        {"neither: left, right and not together make nothing higher", 3, {{2, 4, 1}, {3, 4, 1}, {4, 4, 1}}, MEADOWSINK_NEITHER},
        {"neither: nor do groups", 3, {{1, 1, 4}, {5, 1, 2}, {7, 1, 2}}, MEADOWSINK_NEITHER},
    };
    lend_both();
    for (size_t k = 0; k < sizeof cases / sizeof cases[0]; k++) {
        lend_sums(cases[k].declarations, cases[k].count);
        expect_compared(cases[k].value, cases[k].what);
    }
}

/* (n+n)+n and n+(n+n), whatever is higher. */
static void equal_counts(void) {
    static const uint16_t left[] = {260, 259, 259, 258, 'n', '+', 258, 'n', '+', 258, 'n'}, right[] = {260, 259, 258, 'n', '+', 259, 258, 'n', '+', 258, 'n'};
    static const uint8_t ranks[][3] = {{1, 4, 1}, {1, 1, 2}};
    lend_text("n+n+n");
    lend_parse(LENT_FIRST, left, 11);
    lend_parse(LENT_SECOND, right, 11);
    for (uint8_t count = 0; count <= 2; count++) {
        lend_sums(ranks, count);
        expect_compared(MEADOWSINK_EQUAL_COUNTS, "equal counts of different parses");
    }
}

/* Rule 0 goes round a loop, and rule 1 is the letter. */
static void lend_loop(int area, size_t rounds) {
    lend(area, "", 0);
    while (rounds-- > 0) add(area, (const uint16_t[]){258}, 1);
    add(area, (const uint16_t[]){259, 'a'}, 2);
}

/* Fewer uses of one rule, and of no rule more, are below without any rank; 44 and 300 have the same low byte. */
static void compare_loops(void) {
    static const uint8_t loop[] = {1, 2, 1, 0, 0, 0, 1, 1, 1, 0, 0, 0, 64, 'a', 'a'};
    static const size_t rounds[][2] = {{0, 1}, {1, 2}, {44, 300}, {0, 256}, {0, 4094}, {4093, 4094}};
    lend(LENT_BOOK, loop, sizeof loop);
    lend_text("a");
    for (size_t k = 0; k < sizeof rounds / sizeof rounds[0]; k++) {
        lend_loop(LENT_FIRST, rounds[k][0]);
        lend_loop(LENT_SECOND, rounds[k][1]);
        expect_compared(MEADOWSINK_BELOW, "below: fewer rounds");
    }
}

/* 64 rules, each a character: a, or one of its own. Each is higher than the next. */
static void lend_steps(void) {
    uint8_t *book = lent[LENT_BOOK].bytes;
    size_t at = 6 + 64 + 64;
    lend(LENT_BOOK, (const uint8_t[]){1, 64, 64, CHAIN_MOST, 0, 0}, 6);
    memset(book + 6, 1, 64);
    memset(book + 6 + 64, 2, 64);
    for (uint8_t r = 0; r < 64; r++, at += 2) memcpy(book + at, (const uint8_t[]){0, 64 + r}, 2);
    for (uint8_t k = 0; k < 64; k++, at += 4) memcpy(book + at, (const uint8_t[]){'a', 'a', k, k}, 4);
    for (uint8_t d = 0; d < CHAIN_MOST; d++, at += 3) memcpy(book + at, (const uint8_t[]){1, d, d + 1}, 3);
    lent[LENT_BOOK].length = at;
}

/* The parse by the later rule is below, be it the next one or the last of all. */
static void compare_steps(void) {
    static const uint16_t pairs[][2] = {{0, 1}, {0, 2}, {0, 31}, {0, 32}, {0, 63}, {1, 63}, {31, 32}, {31, 33}, {32, 63}, {62, 63}};
    lend_steps();
    lend_text("a");
    for (size_t k = 0; k < sizeof pairs / sizeof pairs[0]; k++) {
        lend_parse(LENT_FIRST, (const uint16_t[]){258 + pairs[k][1], 'a'}, 2);
        lend_parse(LENT_SECOND, (const uint16_t[]){258 + pairs[k][0], 'a'}, 2);
        expect_compared(MEADOWSINK_BELOW, "below: a lower rule");
    }
}

static void expect_not_compared(uint64_t number, uint64_t place, const char *what) {
    expect(call_compare(meadowsink_compare, LENT_FIRST, LENT_SECOND) == 4 * number + 3, what);
    expect(call_compare(meadowsink_compare_place, LENT_FIRST, LENT_SECOND) == place, what);
}

/* What is lent in each of these: so many bytes of the book, a text, and so many bytes of the two parses of n+n, with zeros behind them. */
static void refuse_comparison(void) {
    static char overlong[202];
    memset(overlong, 'n', 201);
    enum { BOOK = 37, ONE = 14, OTHER = 16 };
    const struct {
        const char *what;
        size_t book_length;
        const char *text;
        size_t first_length, second_length;
        uint64_t number, place;
    } refusals[] = {
        {"1: five bytes of a book", 5, "n+n", ONE, OTHER, 1, 5},
        {"4: a book of a byte less", BOOK - 1, "n+n", ONE, OTHER, 4, BOOK - 1},
        {"10: a text of 201 bytes", BOOK, overlong, ONE, OTHER, 10, 201},
        {"11: an odd count of bytes, first", BOOK, "n+n", ONE - 1, OTHER, 11, ONE - 1},
        {"11: over 8,192 bytes, first", BOOK, "n+n", 8194, OTHER, 11, 8194},
        {"11: an odd count of bytes, second", BOOK, "n+n", ONE, OTHER - 1, 11, OTHER - 1},
        {"11: over 8,192 bytes, second", BOOK, "n+n", ONE, 8194, 11, 8194},
        {"11: and an odd count, second", BOOK, "n+n", ONE, 8193, 11, 8193},
        {"29: a number is missing, first", BOOK, "n+n", ONE - 2, OTHER, 29, 0},
        {"29: a number too many, first", BOOK, "n+n", ONE + 2, OTHER, 29, 0},
        {"29: no numbers, first", BOOK, "n+n", 0, OTHER, 29, 0},
        {"29: 8,192 bytes are not too many, first", BOOK, "n+n", 8192, OTHER, 29, 0},
        {"29: a number is missing, second", BOOK, "n+n", ONE, OTHER - 2, 29, 1},
        {"29: a number too many, second", BOOK, "n+n", ONE, OTHER + 2, 29, 1},
        {"29: no numbers, second", BOOK, "n+n", ONE, 0, 29, 1},
        {"29: 8,192 bytes are not too many, second", BOOK, "n+n", ONE, 8192, 29, 1},
        {"29: another text, so both", BOOK, "n+r", ONE, OTHER, 29, 0},
        {"29: text is left over, so both", BOOK, "n+nn", ONE, OTHER, 29, 0},
        /* two faults at once */
        {"1 before 10", 5, overlong, ONE, OTHER, 1, 5},
        {"1 before 11, first", 5, "n+n", ONE - 1, OTHER, 1, 5},
        {"1 before 11, second", 5, "n+n", ONE, OTHER - 1, 1, 5},
        {"1 before 29", 5, "n+r", ONE, OTHER, 1, 5},
        {"10 before 11, first", BOOK, overlong, ONE - 1, OTHER, 10, 201},
        {"10 before 11, second", BOOK, overlong, ONE, 8194, 10, 201},
        {"10 before 29", BOOK, overlong, ONE, OTHER, 10, 201},
        {"11, first before second", BOOK, "n+n", ONE - 1, OTHER - 1, 11, ONE - 1},
        {"11, first before second, both too long", BOOK, "n+n", 8194, 8196, 11, 8194},
        {"11, first, before 29, second", BOOK, "n+n", ONE - 1, OTHER - 2, 11, ONE - 1},
        {"11, second, before 29, first", BOOK, "n+n", ONE - 2, OTHER - 1, 11, OTHER - 1},
        {"29, first before second", BOOK, "n+n", ONE - 2, OTHER - 2, 29, 0},
    };
    lend_both();
    lend_sums((const uint8_t[][3]){{1, 4, 1}}, 1);
    for (size_t i = 0; i < sizeof refusals / sizeof refusals[0]; i++) {
        lent[LENT_BOOK].length = refusals[i].book_length;
        lend_text(refusals[i].text);
        lent[LENT_FIRST].length = refusals[i].first_length;
        lent[LENT_SECOND].length = refusals[i].second_length;
        expect_not_compared(refusals[i].number, refusals[i].place, refusals[i].what);
    }
}

/* The ranks of the book bar a parse, directly or through another rule: it is none by this book. And books that are refused for their declarations. */
static void refuse_ranks(void) {
    static const struct {
        const char *what;
        uint8_t declarations[2][3];
        uint64_t number, place;
    } cases[] = {
        {"29: 2 may not stand below 4", {{1, 4, 2}, {1, 4, 3}}, 29, 1},
        {"29: nor if 4 is higher through 1", {{1, 4, 1}, {1, 1, 2}}, 29, 1},
        {"29: 1 may not stand below 2", {{1, 2, 1}, {1, 4, 3}}, 29, 0},
        {"29: nor 2 below 4", {{1, 2, 1}, {1, 4, 2}}, 29, 0},
        {"7: no such rule", {{1, 4, 1}, {1, 1, 5}}, 7, 39},
        {"9: a circle", {{1, 4, 1}, {1, 1, 4}}, 9, 1},
    };
    lend_both();
    for (size_t k = 0; k < sizeof cases / sizeof cases[0]; k++) {
        lend_sums(cases[k].declarations, 2);
        expect_not_compared(cases[k].number, cases[k].place, cases[k].what);
    }
}

/* ---- areas */

/* An empty area may be NULL. */
static void empty_areas(void) {
    static const uint8_t empty_rule[] = {1, 1, 0, 0, 0, 0, 0, 0}, its_listing[] = {258 % 256, 258 / 256};
    expect(meadowsink_check(NULL, 0) == 4 * 1 + 3 && meadowsink_check_place(NULL, 0) == 0, "1: no book at all");
    expect(meadowsink_conflict(NULL, 0, 0, 0, 0) == 4 * 1 + 3 && meadowsink_conflict_place(NULL, 0, 0, 0, 0) == 0, "1: no book to ask");
    expect(meadowsink_reason(NULL, 0, 0, 0, 0, NULL, 0) == 4 * 1 + 3 && meadowsink_reason_place(NULL, 0, 0, 0, 0, NULL, 0) == 0, "1: no book to ask why");
    expect(meadowsink_flat(NULL, 0, NULL, 0) == 4 * 1 + 3 && meadowsink_flat_place(NULL, 0, NULL, 0) == 0, "1: no book to write");
    expect(meadowsink_flat(book_t, sizeof book_t, NULL, 0) == 4 * 21 + 3, "21: nowhere to write");
    expect(meadowsink_read(NULL, 0, NULL, 0, NULL, 0, NULL, 0) == 4 * 1 + 3, "1: no book to read by");
    expect(meadowsink_read(book_t, sizeof book_t, NULL, 0, NULL, 0, NULL, 0) == 4 * 20 + 3, "20: no chart");
    expect(meadowsink_read_place(book_t, sizeof book_t, NULL, 0, NULL, 0, NULL, 0) == 10, "20: its place");
    expect(meadowsink_read(book_t, sizeof book_t, NULL, 0, chart, sizeof chart, NULL, 0) == 0, "no parse of no text");
    expect(meadowsink_read(empty_rule, sizeof empty_rule, NULL, 0, chart, sizeof chart, NULL, 0) == 4 * 22 + 3, "22: no listing");
    expect(meadowsink_check_listing(NULL, 0, NULL, 0, NULL, 0) == 4 * 1 + 3, "1: no book to check by");
    expect(meadowsink_check_listing(book_t, sizeof book_t, NULL, 0, NULL, 0) == 4 * 0 + 1, "no number is wrong at 0");
    expect(meadowsink_page(NULL, 0, NULL, 0, NULL, 0, NULL, 0) == 4 * 1 + 3, "1: no book to write a page by");
    expect(meadowsink_page(book_t, sizeof book_t, NULL, 0, NULL, 0, NULL, 0) == 4 * 23 + 3, "23: no listing");
    expect(meadowsink_page(empty_rule, sizeof empty_rule, NULL, 0, its_listing, 2, NULL, 0) == 4 * 24 + 3, "24: no page");
    expect(meadowsink_page_place(empty_rule, sizeof empty_rule, NULL, 0, its_listing, 2, NULL, 0) == 73, "24: its place");
    expect(meadowsink_text_under(NULL, 0, NULL, 0, NULL, 0, 0) == 0, "no part by no book");
    expect(meadowsink_text_under(empty_rule, sizeof empty_rule, NULL, 0, its_listing, 2, 0) == 0, "no part of no text");
    expect(meadowsink_compare(NULL, 0, NULL, 0, NULL, 0, NULL, 0) == 4 * 1 + 3, "1: no book to compare by");
    expect(meadowsink_compare_place(NULL, 0, NULL, 0, NULL, 0, NULL, 0) == 0, "1: its place");
    expect(meadowsink_compare(book_t, sizeof book_t, NULL, 0, NULL, 0, NULL, 0) == 4 * 29 + 3, "29: no listings");
    expect(meadowsink_compare_place(book_t, sizeof book_t, NULL, 0, NULL, 0, NULL, 0) == 0, "29: the first");
    expect(meadowsink_compare(empty_rule, sizeof empty_rule, NULL, 0, its_listing, 2, NULL, 0) == 4 * 29 + 3, "29: one listing");
    expect(meadowsink_compare_place(empty_rule, sizeof empty_rule, NULL, 0, its_listing, 2, NULL, 0) == 1, "29: the second");
    expect(meadowsink_compare(empty_rule, sizeof empty_rule, NULL, 0, its_listing, 2, its_listing, 2) == 4 * 1 + 1, "equal counts for no text");
    expect(meadowsink_sheet(empty_rule, sizeof empty_rule, NULL, 0, NULL, 0, NULL, 0) == 4 * 0 + 1, "no line of no sheet");
    expect(meadowsink_sheet_step(empty_rule, sizeof empty_rule, NULL, 0, 0, NULL, 0) == 0, "and no step");
}

static void empty_flat_areas(void) {
    const uint8_t *empty_line = (const uint8_t *)"-> [\\258]\n";
    const uint8_t root = 1;
    expect(meadowsink_check_flat(NULL, 0) == 4 * 27 + 3 && meadowsink_check_flat_place(NULL, 0) == 0, "27: no flat text at all");
    expect(meadowsink_read_flat(NULL, 0, NULL, 0, NULL, 0, NULL, 0, NULL, 0) == 4 * 27 + 3, "27: no flat text to read by");
    expect(meadowsink_read_flat(empty_line, 10, NULL, 0, NULL, 0, NULL, 0, NULL, 0) == 4 * 20 + 3, "20: no chart by a flat text");
    expect(meadowsink_read_flat_place(empty_line, 10, NULL, 0, NULL, 0, NULL, 0, NULL, 0) == 1, "20: its place");
    expect(meadowsink_read_flat(empty_line, 10, NULL, 0, NULL, 0, chart, 1, NULL, 0) == 0, "no line at the root, no parse");
    expect(meadowsink_read_flat(empty_line, 10, &root, 1, NULL, 0, chart, 1, NULL, 0) == 4 * 22 + 3, "22: no listing by a flat text");
}

/* T with its digits written downwards: each call gives what it gives with T, and writes the same bytes. */
static void downward_ranges(void) {
    static uint8_t other[70000];
    uint8_t down[sizeof book_t], bytes[20];
    memcpy(down, book_t, sizeof down);
    down[22] = 57;
    down[23] = 48;
    list(bytes);
    expect(meadowsink_check(down, sizeof down) == 0, "9-0 is accepted");
    expect(meadowsink_conflict(down, sizeof down, 1, 2, 2) == 1, "9-0: a conflict");
    expect(meadowsink_reason(down, sizeof down, 1, 2, 2, chain, sizeof chain) == because(LAST, 2), "9-0: its reason");
    memset(page, 0x5a, sizeof page);
    memset(other, 0x5a, sizeof other);
    expect(meadowsink_flat(down, sizeof down, page, sizeof page) == meadowsink_flat(book_t, sizeof book_t, other, sizeof page), "9-0: the flat book's length");
    expect(memcmp(page, other, sizeof page) == 0, "9-0: the flat book");
    expect(call("8/4*2", sizeof chart, sizeof listing) == 4 * 10 + 1, "0-9: one");
    memcpy(other, chart, sizeof chart);
    fill();
    expect(meadowsink_read(down, sizeof down, (const uint8_t *)"8/4*2", 5, chart, sizeof chart, listing, sizeof listing) == 4 * 10 + 1, "9-0: one");
    expect(memcmp(chart, other, sizeof chart) == 0, "9-0: the chart");
    expect(memcmp(listing, bytes, sizeof bytes) == 0 && untouched(listing, sizeof bytes, sizeof listing, 0x5a), "9-0: the listing");
    expect(meadowsink_check_listing(down, sizeof down, (const uint8_t *)"8/4*2", 5, bytes, sizeof bytes) == 0, "9-0: its listing is right");
    expect(meadowsink_page(down, sizeof down, (const uint8_t *)"8/4*2", 5, bytes, sizeof bytes, page, sizeof page) == 4 * 730 + 1, "9-0: its page");
    expect(meadowsink_text_under(down, sizeof down, (const uint8_t *)"8/4*2", 5, bytes, sizeof bytes, 1) == 256 * 0 + 3, "9-0: the text under a number");
    expect(meadowsink_compare(down, sizeof down, (const uint8_t *)"8/4*2", 5, bytes, sizeof bytes, bytes, sizeof bytes) == 4 * 1 + 1, "9-0: equal counts");
    expect(meadowsink_sheet(down, sizeof down, (const uint8_t *)"8\n8/4*2", 7, chart, sizeof chart, listing, 2) == 4 * 2 + 1, "9-0: two lines");
    expect(listing[0] == 1 && listing[1] == 1, "9-0: each one");
    down[28] = 9;
    expect(meadowsink_check(down, sizeof down) == 4 * 7 + 3 && meadowsink_check_place(down, sizeof down) == 28, "9-0 and kind 9: 7, where 6 was");
}

/* The digits under two names: each call refuses the book by 8 and changes nothing. With a character less in one of them the book is accepted, and `8` has two readings. */
static void equal_rules(void) {
    uint8_t twice[] = {1, 2, 2, 0, 0, 0, 1, 1, 1, 2, 0, 64, 0, 65, 48, 57, 57, 53, 48, 52};
    const size_t length = sizeof twice;
    const uint8_t eight[] = {56}, its_listing[] = {2, 1, 56, 0};
    const uint64_t refused = 4 * 8 + 3, place = 12;
    fill();
    memset(page, 0x5a, sizeof page);
    expect(meadowsink_check(twice, length) == refused && meadowsink_check_place(twice, length) == place, "8: checking");
    expect(meadowsink_conflict(twice, length, 0, 0, 1) == refused && meadowsink_conflict_place(twice, length, 0, 0, 1) == place, "8: a conflict");
    expect_reason_refused(twice, length, 0, 0, 1, 8, place, "8: a reason");
    expect(meadowsink_flat(twice, length, page, sizeof page) == refused && meadowsink_flat_place(twice, length, page, sizeof page) == place, "8: the flat book");
    expect(meadowsink_read(twice, length, eight, 1, chart, sizeof chart, listing, sizeof listing) == refused, "8: reading");
    expect(meadowsink_read_place(twice, length, eight, 1, chart, sizeof chart, listing, sizeof listing) == place, "8: its place");
    expect(meadowsink_check_listing(twice, length, eight, 1, its_listing, 4) == refused, "8: a listing");
    expect(meadowsink_check_listing_place(twice, length, eight, 1, its_listing, 4) == place, "8: its place");
    expect(meadowsink_page(twice, length, eight, 1, its_listing, 4, page, sizeof page) == refused, "8: a page");
    expect(meadowsink_page_place(twice, length, eight, 1, its_listing, 4, page, sizeof page) == place, "8: its place");
    expect(meadowsink_text_under(twice, length, eight, 1, its_listing, 4, 0) == 0, "8: no text under a number");
    expect(meadowsink_compare(twice, length, eight, 1, its_listing, 4, its_listing, 4) == refused, "8: comparing");
    expect(meadowsink_compare_place(twice, length, eight, 1, its_listing, 4, its_listing, 4) == place, "8: its place");
    expect(meadowsink_sheet(twice, length, eight, 1, chart, sizeof chart, listing, 1) == refused, "8: a sheet");
    expect(meadowsink_sheet_place(twice, length, eight, 1, chart, sizeof chart, listing, 1) == place, "8: its place");
    expect(meadowsink_sheet_step(twice, length, eight, 1, 0, chart, sizeof chart) == refused, "8: a step");
    expect(meadowsink_sheet_step_place(twice, length, eight, 1, 0, chart, sizeof chart) == place, "8: its place");
    expect(untouched(chart, 0, sizeof chart, 0xa5) && untouched(listing, 0, sizeof listing, 0x5a) && untouched(page, 0, sizeof page, 0x5a), "8 changes nothing");
    twice[length - 1] = 51;
    expect(meadowsink_check(twice, length) == 0, "other sets are accepted");
    expect(meadowsink_read(twice, length, eight, 1, chart, sizeof chart, listing, sizeof listing) == 2, "and 8 has several readings");
}

/* ---- a sheet */

static const char four[] = "8/4*2\n\n88\n8"; /* one, none, none, one */
static uint8_t summary[65535], before[sizeof chart];

static void fill_sheet(void) {
    memset(chart, 0x5a, sizeof chart);
    memset(summary, 0x5a, sizeof summary);
}

static uint64_t call_sheet(size_t length, size_t chart_length, size_t summary_length) {
    fill_sheet();
    return meadowsink_sheet(book_t, sizeof book_t, (const uint8_t *)four, length, chart, chart_length, summary, summary_length);
}

/* The chart as reading each line of `four` in turn leaves it, with no room for a listing. */
static void read_in_turn(size_t chart_length) {
    static const size_t starts[] = {0, 6, 7, 10}, ends[] = {5, 6, 9, 11};
    fill_sheet();
    for (int i = 0; i < 4; i++)
        meadowsink_read(book_t, sizeof book_t, (const uint8_t *)four + starts[i], ends[i] - starts[i], chart, chart_length, NULL, 0);
    memcpy(before, chart, sizeof chart);
}

static void read_sheet(void) {
    read_in_turn(sizeof chart);
    expect(call_sheet(11, sizeof chart, 9) == 4 * 4 + 1, "four lines");
    expect(memcmp(summary, "\1\0\0\1", 4) == 0 && untouched(summary, 4, sizeof summary, 0x5a), "their bytes, and those beyond");
    expect(memcmp(chart, before, sizeof chart) == 0, "the chart is that of each line in turn");
    expect(call_sheet(10, sizeof chart, 3) == 4 * 3 + 1, "a last line feed ends the last line");
    expect(call_sheet(0, 0, 0) == 4 * 0 + 1 && untouched(chart, 0, sizeof chart, 0x5a), "no bytes, no line");
    read_in_turn(209);
    expect(call_sheet(11, 209, 4) == 4 * 4 + 1, "a chart one byte short of the longest line");
    expect(memcmp(summary, "\3\0\0\1", 4) == 0 && memcmp(chart, before, sizeof chart) == 0, "that line is refused, and the others are read");
    expect(call_sheet(11, 210, 4) == 4 * 4 + 1 && summary[0] == 1, "a chart that is just long enough");
}

static void refuse_sheet(void) {
    static uint8_t feeds[65536];
    memset(feeds, '\n', sizeof feeds);
    expect(call_sheet(11, sizeof chart, 3) == 4 * 26 + 3, "26: three bytes for four lines");
    expect(meadowsink_sheet_place(book_t, sizeof book_t, (const uint8_t *)four, 11, chart, sizeof chart, summary, 3) == 4, "26: the place is the lines");
    expect(untouched(chart, 0, sizeof chart, 0x5a) && untouched(summary, 0, sizeof summary, 0x5a), "26: nothing is changed");
    expect(meadowsink_sheet(book_t, sizeof book_t, feeds, 65535, chart, 10, summary, 65535) == 4 * 65535 + 1, "65,535 empty lines");
    expect(untouched(summary, 0, sizeof summary, 0), "each has no reading");
    fill_sheet();
    expect(meadowsink_sheet(book_t, sizeof book_t, feeds, 65536, chart, 10, summary, 0) == 4 * 25 + 3, "25: 65,536 bytes, before 26");
    expect(meadowsink_sheet_place(book_t, sizeof book_t, feeds, 65536, chart, 10, summary, 0) == 65536, "25: the place is the length");
    expect(meadowsink_sheet(book_t, 5, feeds, 65536, chart, 10, summary, 0) == 4 * 1 + 3, "1: before 25");
    expect(meadowsink_sheet_place(book_t, 5, feeds, 65536, chart, 10, summary, 0) == 5, "1: with its place");
    expect(meadowsink_sheet_step(book_t, sizeof book_t, feeds, 65536, (size_t)1 << 63, chart, 10) == 4 * 25 + 3, "25: before no line is left");
    expect(meadowsink_sheet_step_place(book_t, sizeof book_t, feeds, 65536, 0, chart, 10) == 65536, "25: its place for a step");
    expect(untouched(chart, 0, sizeof chart, 0x5a) && untouched(summary, 0, sizeof summary, 0x5a), "25 and 1: nothing is changed");
}

/* ---- a step down it */

static uint64_t step(size_t start) { return meadowsink_sheet_step(book_t, sizeof book_t, (const uint8_t *)four, 11, start, chart, sizeof chart); }

static void walk_sheet(void) {
    read_in_turn(sizeof chart);
    fill_sheet();
    expect(step(0) == 4 * (4 * 6 + 1) + 1, "the first line: one, and the next starts at 6");
    expect(step(6) == 4 * (4 * 7 + 0) + 1, "an empty line: none");
    expect(step(7) == 4 * (4 * 10 + 0) + 1, "88: none");
    expect(step(10) == 4 * (4 * 11 + 1) + 1, "the last line ends with the sheet");
    expect(memcmp(chart, before, sizeof chart) == 0, "the chart is that of the sheet");
    expect(step(11) == 0 && step(12) == 0 && step((size_t)1 << 63) == 0 && step(SIZE_MAX) == 0, "at and past the end no line is left");
    expect(memcmp(chart, before, sizeof chart) == 0, "and the chart stays");
    expect(step(2) == 4 * (4 * 6 + 1) + 1, "inside a line: its rest, 4*2");
    expect(step(5) == 4 * (4 * 6 + 0) + 1, "on the line feed: an empty line");
    fill_sheet();
    expect(meadowsink_sheet_step(book_t, sizeof book_t, (const uint8_t *)four, 11, 0, chart, 209) == 4 * (4 * 6 + 3) + 1, "a line that is refused, and on");
    expect(meadowsink_sheet_step_place(book_t, sizeof book_t, (const uint8_t *)four, 11, 0, chart, 209) == 0, "it has no place");
    expect(meadowsink_sheet_step(book_t, 5, (const uint8_t *)four, 11, 99, chart, 209) == 4 * 1 + 3, "1: before no line is left");
    expect(meadowsink_sheet_step_place(book_t, 5, (const uint8_t *)four, 11, 99, chart, 209) == 5, "1: with its place");
    expect(untouched(chart, 0, sizeof chart, 0x5a), "a refused line, and a refused step, leave the chart");
}

/* Areas that are only read may overlap. */
static void shared_areas(void) {
    memset(listing, 0x5a, sizeof listing);
    expect(meadowsink_read(book_t, sizeof book_t, book_t + 22, 1, chart, sizeof chart, listing, sizeof listing) == 4 * 2 + 1, "a text inside the book: 0");
    expect(listing[0] == 2 && listing[1] == 1 && listing[2] == 48 && listing[3] == 0, "its listing");
    expect(meadowsink_check_listing(book_t, sizeof book_t, listing + 2, 1, listing, 4) == 0, "a text inside the listing");
    expect(meadowsink_page(book_t, sizeof book_t, listing + 2, 1, listing, 4, page, sizeof page) == 4 * 146 + 1, "its page");
    expect(meadowsink_text_under(book_t, sizeof book_t, listing + 2, 1, listing, 4, 1) == 256 * 0 + 1, "the text under its character");
    expect(meadowsink_compare(book_t, sizeof book_t, listing + 2, 1, listing, 4, listing, 4) == 4 * 1 + 1, "one listing, lent twice");
    const uint8_t *bracket = (const uint8_t *)"[\\91] -> [\\258]\n";
    expect(meadowsink_read_flat(bracket, 16, bracket, 1, bracket, 1, chart, sizeof chart, listing, 4) == 4 * 2 + 1, "root and text inside the flat text");
    expect(listing[0] == 2 && listing[1] == 1 && listing[2] == 91 && listing[3] == 0, "its listing");
}

int main(void) {
    check();
    conflict();
    reason();
    shorten_chain();
    shortest_chain();
    longest_chain();
    last_declaration();
    refuse_reason();
    flat();
    check_listing();
    read_text();
    read_place();
    check_flat();
    count_lines();
    read_flat();
    refuse_flat();
    shorten_listing();
    exceed_listing();
    write_page();
    text_under();
    refuse_page();
    compare_sums();
    equal_counts();
    compare_loops();
    compare_steps();
    refuse_comparison();
    refuse_ranks();
    empty_areas();
    empty_flat_areas();
    downward_ranges();
    equal_rules();
    read_sheet();
    refuse_sheet();
    walk_sheet();
    shared_areas();
    if (failures == 0) printf("viewer call: all as it should be\n");
    return failures != 0;
}
