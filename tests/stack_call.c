/*
 * Makes one call of the library and prints its answer: tests/stack.sh runs it with a small stack.
 *
 *     stack_call read BOOK N             a text of N times a
 *     stack_call sheet BOOK N            two lines of N times a
 *     stack_call sheet_step BOOK N       the first of them
 *     stack_call check BOOK
 *     stack_call conflict BOOK P I Q
 *     stack_call reason BOOK P I Q
 *     stack_call flat BOOK [FILE]        FILE is where the flat text goes
 *     stack_call check_flat FLAT
 *     stack_call read_flat FLAT N NUMBER..    a text of N times a, with the lines of these numbers allowed at the root
 *     stack_call check_listing BOOK N NUMBER.. [/ NUMBER..]
 *     stack_call page BOOK N NUMBER.. [/ NUMBER..]
 *     stack_call text_under BOOK N NUMBER.. [/ NUMBER..]        under the last number
 *     stack_call compare BOOK N NUMBER.. [/ NUMBER..]           with itself
 *     stack_call --need CALL WORD..      any of these, and behind its answer how many bytes of stack the call took
 *
 * The numbers before the slash are repeated as long as they and those behind it fit 4,096 numbers.
 * With `_place` behind its name the operation's second call is made. The answer is printed as its kind and value, as the place, or as the part's start and
 * end; behind the kind and value of one reading stands how many levels of rules its listing has, and so for a listing that was lent. Behind those of a page
 * stands the depth on its last line, behind those of a sheet the summary bytes of its two lines, and behind those of a reason the ends of its chain, if it has
 * one.
 */
#define _POSIX_C_SOURCE 200809L
#include <pthread.h>
#include <stdio.h>
#include <stdlib.h>
#include <string.h>

#include "../include/meadowsink.h"

enum {
    header = 6,
    first_rule = 258,
    argument_limit = 8,
    rule_limit = 64,
    text_limit = 200,
    book_limit = 65536,
    listing_limit = 65536,
    checked_limit = 4096,
    line_length = 73,
    chart_limit = rule_limit * (argument_limit + 1) * (text_limit + 1) * (text_limit + 2) / 2,
    stack_limit = 4 << 20,
    paint = 0xa5
};

/* Nothing large is on this program's own stack. */
static uint8_t book[book_limit], text[text_limit], two[2 * text_limit + 2], chart[chart_limit], out[listing_limit], lines[line_length * checked_limit];
static uint8_t roots[rule_limit];
static size_t book_length, text_length; /* the book may be a flat text */
static struct {
    size_t p, i, q;
} asked; /* may rule q stand as argument i of rule p? */
static int pending[listing_limit];

static int fail(const char *what) {
    fprintf(stderr, "stack_call: %s\n", what);
    exit(2);
}

static void load_book(const char *name) {
    FILE *file = fopen(name, "rb");
    if (file == NULL) fail("no such book");
    book_length = fread(book, 1, sizeof book, file);
    fclose(file);
}

static void load_text(const char *length) {
    text_length = strtoul(length, NULL, 10);
    if (text_length > text_limit) fail("the text is too long");
    memset(text, 'a', text_length);
}

static void load_question(char **numbers) {
    asked.p = strtoul(numbers[0], NULL, 10);
    asked.i = strtoul(numbers[1], NULL, 10);
    asked.q = strtoul(numbers[2], NULL, 10);
}

static void load_roots(int count, char **numbers) {
    for (int i = 0; i < count; i++) {
        unsigned long number = strtoul(numbers[i], NULL, 10);
        if (number < first_rule || number >= first_rule + rule_limit) fail("no such line");
        roots[number - first_rule] = 1;
    }
}

/* ---- the levels of a listing */

static const uint8_t *argument_counts = book + header;

/* A line of a flat text has a class for each argument, and one for its own number. */
static void count_arguments(void) {
    static uint8_t counts[rule_limit];
    size_t line = 0;
    for (size_t at = 0; at < book_length; at++)
        if (book[at] == '\n')
            counts[line++]--;
        else
            counts[line] += book[at] == '[';
    argument_counts = counts;
}

static unsigned number_at(size_t index) {
    return out[2 * index] + 256u * out[2 * index + 1];
}

/* How deep rules stand in one another; the listing has each rule before its arguments. */
static size_t levels(size_t count) {
    size_t depth = 0, deepest = 0;
    for (size_t at = 0; at < count; at++) {
        if (at > 0 && depth == 0) fail("the listing goes on behind the tree");
        pending[depth++] = number_at(at) >= first_rule ? argument_counts[number_at(at) - first_rule] : 0;
        if (number_at(at) >= first_rule && depth > deepest) deepest = depth;
        while (depth > 0 && pending[depth - 1] == 0)
            if (--depth > 0) pending[depth - 1]--;
    }
    return deepest;
}

/* ---- the calls */

static void print_answer(uint64_t answer) {
    printf("kind %llu value %llu", (unsigned long long)(answer % 4), (unsigned long long)(answer / 4));
}

static void print_place(uint64_t place) {
    printf("place %llu", (unsigned long long)place);
}

/* Numbers in base ten; those before the slash as often as they fit. */
static size_t fill_listing(int count, char **numbers) {
    int repeated = 0;
    while (repeated < count && strcmp(numbers[repeated], "/") != 0) repeated++;
    int behind = repeated < count ? count - repeated - 1 : 0;
    if (repeated == 0) fail("no numbers");
    size_t times = (size_t)(checked_limit - behind) / (size_t)repeated, at = 0;
    for (size_t i = 0; i < times * (size_t)repeated + (size_t)behind; i++) {
        size_t from = i < times * (size_t)repeated ? i % (size_t)repeated : (size_t)repeated + 1 + i - times * (size_t)repeated;
        unsigned long number = strtoul(numbers[from], NULL, 10);
        out[at++] = (uint8_t)(number % 256);
        out[at++] = (uint8_t)(number / 256);
    }
    return at;
}

static void read_text(int place) {
    if (place) {
        print_place(meadowsink_read_place(book, book_length, text, text_length, chart, sizeof chart, out, sizeof out));
        return;
    }
    uint64_t answer = meadowsink_read(book, book_length, text, text_length, chart, sizeof chart, out, sizeof out);
    print_answer(answer);
    if (answer % 4 == 1) printf(" levels %zu", levels(answer / 4));
}

/* The levels are counted when the answer is there, and a flat text is then known to be one. */
static void read_flat(int place) {
    if (place) {
        print_place(meadowsink_read_flat_place(book, book_length, roots, sizeof roots, text, text_length, chart, sizeof chart, out, sizeof out));
        return;
    }
    uint64_t answer = meadowsink_read_flat(book, book_length, roots, sizeof roots, text, text_length, chart, sizeof chart, out, sizeof out);
    print_answer(answer);
    if (answer % 4 != 1) return;
    count_arguments();
    printf(" levels %zu", levels(answer / 4));
}

/* Each line has its line feed: without one an empty second line would be none. */
static size_t fill_sheet(void) {
    memcpy(two, text, text_length);
    memcpy(two + text_length + 1, text, text_length);
    two[text_length] = two[2 * text_length + 1] = '\n';
    return 2 * text_length + 2;
}

static void sheet(int place) {
    size_t length = fill_sheet();
    if (place) {
        print_place(meadowsink_sheet_place(book, book_length, two, length, chart, sizeof chart, out, 2));
        return;
    }
    print_answer(meadowsink_sheet(book, book_length, two, length, chart, sizeof chart, out, 2));
    printf(" bytes %d %d", out[0], out[1]);
}

static void step(int place) {
    size_t length = fill_sheet();
    if (place)
        print_place(meadowsink_sheet_step_place(book, book_length, two, length, 0, chart, sizeof chart));
    else
        print_answer(meadowsink_sheet_step(book, book_length, two, length, 0, chart, sizeof chart));
}

static void check(int place) {
    printf(place ? "place %llu" : "number %llu", (unsigned long long)(place ? meadowsink_check_place(book, book_length) : meadowsink_check(book, book_length)));
}

static void conflict(int place) {
    if (place)
        print_place(meadowsink_conflict_place(book, book_length, asked.p, asked.i, asked.q));
    else
        print_answer(meadowsink_conflict(book, book_length, asked.p, asked.i, asked.q));
}

/* Line 1 has a chain, and the value says how long it is. */
static void reason(int place) {
    if (place) {
        print_place(meadowsink_reason_place(book, book_length, asked.p, asked.i, asked.q, out, sizeof out));
        return;
    }
    uint64_t answer = meadowsink_reason(book, book_length, asked.p, asked.i, asked.q, out, sizeof out);
    print_answer(answer);
    if (answer % 4 == 1 && answer / 4 % 4 == 1) printf(" chain from %d to %d", out[0], out[answer / 16 - 1]);
}

static void save(const char *name, size_t length) {
    FILE *file = fopen(name, "wb");
    if (file == NULL || fwrite(out, 1, length, file) != length || fclose(file) != 0) fail("the file can't be written");
}

static void flat(int place, const char *name) {
    if (place) {
        print_place(meadowsink_flat_place(book, book_length, out, sizeof out));
        return;
    }
    uint64_t answer = meadowsink_flat(book, book_length, out, sizeof out);
    print_answer(answer);
    if (name != NULL && answer % 4 == 1) save(name, answer / 4);
}

static void check_flat(int place) {
    if (place)
        print_place(meadowsink_check_flat_place(book, book_length));
    else
        print_answer(meadowsink_check_flat(book, book_length));
}

static void check_listing(int place, size_t length) {
    if (place)
        print_place(meadowsink_check_listing_place(book, book_length, text, text_length, out, length));
    else
        print_answer(meadowsink_check_listing(book, book_length, text, text_length, out, length));
}

static void page(int place, size_t length) {
    if (place) {
        print_place(meadowsink_page_place(book, book_length, text, text_length, out, length, lines, sizeof lines));
        return;
    }
    uint64_t answer = meadowsink_page(book, book_length, text, text_length, out, length, lines, sizeof lines);
    print_answer(answer);
    if (answer % 4 == 1) printf(" depth %d", atoi((const char *)lines + answer / 4 - line_length));
}

static void text_under(size_t length) {
    uint64_t part = meadowsink_text_under(book, book_length, text, text_length, out, length, length / 2 - 1);
    printf("start %llu end %llu", (unsigned long long)(part / 256), (unsigned long long)(part % 256));
}

/* The listing is lent twice. */
static void compare(int place, size_t length) {
    if (place)
        print_place(meadowsink_compare_place(book, book_length, text, text_length, out, length, out, length));
    else
        print_answer(meadowsink_compare(book, book_length, text, text_length, out, length, out, length));
}

static void with_listing(const char *operation, int place, size_t length) {
    if (strcmp(operation, "check_listing") == 0)
        check_listing(place, length);
    else if (strcmp(operation, "page") == 0)
        page(place, length);
    else if (strcmp(operation, "text_under") == 0 && !place)
        text_under(length);
    else if (strcmp(operation, "compare") == 0)
        compare(place, length);
    else
        fail("no such call");
    if (!place) printf(" numbers %zu levels %zu", length / 2, levels(length / 2));
}

/* A call that is lent a text, but no listing; says whether it is one. */
static int with_text(const char *operation, int place, int count, char **words) {
    if (strcmp(operation, "read") == 0 && count == 0) {
        read_text(place);
    } else if (strcmp(operation, "sheet") == 0 && count == 0) {
        sheet(place);
    } else if (strcmp(operation, "sheet_step") == 0 && count == 0) {
        step(place);
    } else if (strcmp(operation, "read_flat") == 0) {
        load_roots(count, words);
        read_flat(place);
    } else {
        return 0;
    }
    return 1;
}

static void make_call(int count, char **words) {
    if (count < 3) fail("too few words");
    char *suffix = strstr(words[1], "_place");
    int place = suffix != NULL;
    if (place) *suffix = '\0';
    load_book(words[2]);
    if (strcmp(words[1], "check") == 0) {
        check(place);
    } else if (strcmp(words[1], "check_flat") == 0) {
        check_flat(place);
    } else if (strcmp(words[1], "flat") == 0) {
        flat(place, words[3]);
    } else if (strcmp(words[1], "conflict") == 0 && count == 6) {
        load_question(words + 3);
        conflict(place);
    } else if (strcmp(words[1], "reason") == 0 && count == 6) {
        load_question(words + 3);
        reason(place);
    } else if (count > 3) {
        load_text(words[3]);
        if (!with_text(words[1], place, count - 4, words + 4)) with_listing(words[1], place, fill_listing(count - 4, words + 4));
    } else {
        fail("no such call");
    }
}

/* ---- how much stack it takes: a thread is given a painted one, and as far as the paint is gone it was used */

static uint8_t stack[stack_limit] __attribute__((aligned(4096)));

typedef struct {
    int count;
    char **words;
} Command;

static void *run_call(void *command) {
    make_call(((Command *)command)->count, ((Command *)command)->words);
    return NULL;
}

static void *run_nothing(void *command) {
    return command;
}

static size_t stack_used(void *(*run)(void *), Command *command) {
    pthread_attr_t attributes;
    pthread_t thread;
    memset(stack, paint, sizeof stack);
    if (pthread_attr_init(&attributes) != 0 || pthread_attr_setstack(&attributes, stack, sizeof stack) != 0) fail("no stack");
    if (pthread_create(&thread, &attributes, run, command) != 0 || pthread_join(thread, NULL) != 0) fail("no thread");
    size_t left = 0;
    while (left < sizeof stack && stack[left] == paint) left++;
    return sizeof stack - left;
}

int main(int count, char **words) {
    if (count > 1 && strcmp(words[1], "--need") == 0) {
        Command command = {count - 1, words + 1};
        size_t own = stack_used(run_nothing, &command);
        printf(" stack %zu\n", stack_used(run_call, &command) - own);
        return 0;
    }
    make_call(count, words);
    putchar('\n');
    return 0;
}
