/*
 * Times calls by several builds of the library, each linked at four places, in turn in one process: how long a loop takes depends on where its code lies.
 *
 *     places BOOK TEXT ROUNDS LIBRARY.so...       (the first four are one build at the four places, the next four another, and so on)
 *
 * A line for each call: for each library, the median over the rounds of its time by the median of the first four in the same round. A `!` says that some
 * library answers otherwise than the first.
 */
#define _POSIX_C_SOURCE 200809L
#include <dlfcn.h>
#include <stdint.h>
#include <stdio.h>
#include <stdlib.h>
#include <string.h>
#include <time.h>

#define PLACES 4
#define LIBRARIES 32
#define ROUNDS 99
#define LINES 20
#define LEAST 0.004 /* seconds that a call is repeated for */

static uint8_t book[1 << 17], text[1 << 16], sheet[1 << 16], flat[1 << 19], out[1 << 19];
static uint8_t chart[12000000], listing[1 << 16], page[1 << 19], summary[1 << 16], chain[256], roots[64];
static size_t book_length, text_length, sheet_length, flat_length, listing_length;

typedef const uint8_t *In;
typedef uint8_t *Out;

/* what a library exports, in the order of `names` */
struct library {
    uint64_t (*check)(In, size_t);
    uint64_t (*conflict)(In, size_t, size_t, size_t, size_t);
    uint64_t (*reason)(In, size_t, size_t, size_t, size_t, Out, size_t);
    uint64_t (*flat)(In, size_t, Out, size_t);
    uint64_t (*read)(In, size_t, In, size_t, Out, size_t, Out, size_t);
    uint64_t (*check_listing)(In, size_t, In, size_t, In, size_t);
    uint64_t (*page)(In, size_t, In, size_t, In, size_t, Out, size_t);
    uint64_t (*text_under)(In, size_t, In, size_t, In, size_t, size_t);
    uint64_t (*compare)(In, size_t, In, size_t, In, size_t, In, size_t);
    uint64_t (*sheet)(In, size_t, In, size_t, Out, size_t, Out, size_t);
    uint64_t (*sheet_step)(In, size_t, In, size_t, size_t, Out, size_t);
    uint64_t (*check_flat)(In, size_t);
    uint64_t (*read_flat)(In, size_t, In, size_t, In, size_t, Out, size_t, Out, size_t);
};

static const char *const names[] = {"check",      "conflict", "reason", "flat",  "read",       "check_listing", "page",
                                    "text_under", "compare",  "sheet",  "sheet_step", "check_flat", "read_flat"};
#define CALLS (sizeof names / sizeof *names)

/* The call of that index, and behind all of them the two readings of an empty text. */
static uint64_t call(const struct library *l, size_t index)
{
    switch (index) {
    case 0: return l->check(book, book_length);
    case 1: return l->conflict(book, book_length, 1, 0, 1);
    case 2: return l->reason(book, book_length, 1, 0, 1, chain, sizeof chain);
    case 3: return l->flat(book, book_length, out, sizeof out);
    case 4: return l->read(book, book_length, text, text_length, chart, sizeof chart, out, sizeof listing);
    case 5: return l->check_listing(book, book_length, text, text_length, listing, listing_length);
    case 6: return l->page(book, book_length, text, text_length, listing, listing_length, page, sizeof page);
    case 7: return l->text_under(book, book_length, text, text_length, listing, listing_length, listing_length / 4);
    case 8: return l->compare(book, book_length, text, text_length, listing, listing_length, listing, listing_length);
    case 9: return l->sheet(book, book_length, sheet, sheet_length, chart, sizeof chart, summary, sizeof summary);
    case 10: return l->sheet_step(book, book_length, sheet, sheet_length, 0, chart, sizeof chart);
    case 11: return l->check_flat(flat, flat_length);
    case 12: return l->read_flat(flat, flat_length, roots, sizeof roots, text, text_length, chart, sizeof chart, out, sizeof listing);
    case 13: return l->read(book, book_length, text, 0, chart, sizeof chart, out, sizeof listing);
    default: return l->read_flat(flat, flat_length, roots, sizeof roots, text, 0, chart, sizeof chart, out, sizeof listing);
    }
}

static double now(void)
{
    struct timespec t;
    clock_gettime(CLOCK_THREAD_CPUTIME_ID, &t);
    return (double)t.tv_sec + (double)t.tv_nsec * 1e-9;
}

static size_t contents(const char *name, uint8_t *area, size_t length)
{
    FILE *file = fopen(name, "rb");
    if (!file) {
        perror(name);
        exit(2);
    }
    length = fread(area, 1, length, file);
    fclose(file);
    return length;
}

static void load(const char *name, struct library *l)
{
    void *handle = dlopen(name, RTLD_NOW | RTLD_LOCAL);
    for (size_t k = 0; k < CALLS; k++) {
        char symbol[64];
        snprintf(symbol, sizeof symbol, "meadowsink_%s", names[k]);
        void *address = handle ? dlsym(handle, symbol) : NULL;
        if (!address) {
            fprintf(stderr, "%s\n", dlerror());
            exit(2);
        }
        memcpy((char *)l + k * sizeof address, &address, sizeof address);
    }
}

static int by_size(const void *a, const void *b)
{
    double x = *(const double *)a, y = *(const double *)b;
    return (x > y) - (x < y);
}

static double median(const double *values, size_t count)
{
    double sorted[ROUNDS];
    memcpy(sorted, values, count * sizeof *values);
    qsort(sorted, count, sizeof *sorted, by_size);
    return (sorted[(count - 1) / 2] + sorted[count / 2]) / 2;
}

/* The times of one call, by library and round, as ratios to the first build's median in the round. */
static void time_call(const struct library *libraries, size_t count, size_t index, size_t rounds)
{
    static double ratios[LIBRARIES][ROUNDS];
    uint64_t wanted = call(&libraries[0], index);
    double start = now();
    call(&libraries[0], index);
    int times = (int)(LEAST / (now() - start + 1e-9)) + 1, differs = 0;
    for (size_t k = 1; k < count; k++) differs |= call(&libraries[k], index) != wanted;
    for (size_t r = 0; r < rounds; r++) {
        double took[LIBRARIES];
        for (size_t j = 0; j < count; j++) {
            size_t k = (r + j) % count;
            start = now();
            for (int t = 0; t < times; t++) call(&libraries[k], index);
            took[k] = now() - start;
        }
        double first = median(took, PLACES);
        for (size_t k = 0; k < count; k++) ratios[k][r] = took[k] / first;
    }
    printf("%s%-16s", differs ? "!" : " ", index < CALLS ? names[index] : index == CALLS ? "read, empty" : "read_flat, empty");
    for (size_t k = 0; k < count; k++) printf("%s%.2f", k && k % PLACES == 0 ? " | " : " ", median(ratios[k], rounds));
    printf("\n");
}

int main(int count, char **words)
{
    static struct library libraries[LIBRARIES];
    size_t rounds = count > 3 ? (size_t)atoi(words[3]) : 0, n = count > 4 ? (size_t)count - 4 : 0;
    if (n < PLACES || n > LIBRARIES || rounds < 1 || rounds > ROUNDS) {
        fprintf(stderr, "usage: places BOOK TEXT ROUNDS LIBRARY.so...\n");
        return 2;
    }
    book_length = contents(words[1], book, sizeof book);
    text_length = contents(words[2], text, 200);
    for (size_t k = 0; k < n; k++) load(words[4 + k], &libraries[k]);
    uint64_t written = libraries[0].flat(book, book_length, flat, sizeof flat);
    flat_length = written % 4 == 1 ? written / 4 : 0;
    memset(roots, 1, sizeof roots); /* each line is allowed at the root */
    for (int k = 0; k < LINES; k++) {
        memcpy(sheet + sheet_length, text, text_length);
        sheet_length += text_length;
        sheet[sheet_length++] = '\n';
    }
    uint64_t answer = libraries[0].read(book, book_length, text, text_length, chart, sizeof chart, listing, sizeof listing);
    listing_length = answer % 4 == 1 ? 2 * (answer / 4) : 0;
    for (size_t k = 0; k < CALLS + 2; k++) {
        int of_a_listing = k >= 5 && k <= 8;
        if (!of_a_listing || (listing_length > 0 && listing_length <= 8192)) time_call(libraries, n, k, rounds);
    }
    return 0;
}
