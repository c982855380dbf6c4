/*
 * The sheet viewer: says how a line is to be taken by a book.
 *
 *     viewer [--names NAMES] BOOK [LINE]            the answer in words, and the tree if there is one reading; without LINE it is read from standard input
 *     viewer --page [--names NAMES] BOOK [LINE]     the page of the one reading, a line for each number of its listing; else the answer in words
 *     viewer --sheet SHEET BOOK                     for each line of a sheet its number, the answer in words, and the line
 *     viewer --flat BOOK                            the flat book; on standard error the numbers allowed at the top, to be kept beside it
 *     viewer --from-flat FLAT --top NUMBERS [LINE]  as the first, by a flat book alone; the numbers are those allowed at the top, such as 258,261-263
 *     viewer --why [--names NAMES] BOOK P I Q       whether rule Q may stand as argument I of rule P, and if the ranks forbid it, by which declarations
 *     viewer --compare FIRST SECOND [--names NAMES] BOOK [LINE]
 *                                                   which of two readings of the line is lower, and each rule that one of them uses more often
 *
 * NAMES has the name of a rule on each line, as tools/book writes it. A rule without a name is shown as `rule N`, counted from 0 as in the book; by a
 * flat book each is, and its first line is rule 0.
 * P and Q are rules, by name or by number; a word that stands in NAMES is a name, even if it is a number. I is a number. Arguments and declarations, too, are
 * counted from 0. A declaration is written as in the text of a book, and a rule without a name is rN there, as `book --show` has it.
 * A line that has no reading is read once more by the book without its declarations. If it has one reading then, each way in which the ranks bar that is
 * said in the words of --why, one a line; if it has several, that is said.
 * A page has numbers only, so names change nothing on it; include/meadowsink.h says what stands in each column.
 * FIRST and SECOND are files with the pages of the two readings, as --page writes them by books with the same rules and other declarations. Of a page only the
 * numbers count. Both must be readings by BOOK, too, whose ranks say which rules are higher.
 * A sheet that takes longer than a second has a line on standard error, if that is a terminal, that says how far it is.
 * A refusal has its number and place; `book --explain BOOK PLACE` says what stands at that byte of a book. A place in a flat book has its line and column, too.
 * The exit status is 0 for an answer, and of a sheet if each line has one reading; 1 for a refusal; 2 if the viewer was called wrongly, a file can't be read or
 * is no page, or something doesn't fit the machine; and 3 for a sheet with a line that has no reading, several, or is refused.
 */
#define _POSIX_C_SOURCE 200809L
#include <errno.h>
#include <stdarg.h>
#include <stdio.h>
#include <stdlib.h>
#include <string.h>
#include <time.h>
#include <unistd.h>
#include "../include/meadowsink.h"

enum { ANSWERED = 0, REFUSED = 1, FAILED = 2, NOT_ALL_ONE = 3 };

enum {
    HEADER = 6,            /* bytes of a book's header */
    RULES = 1,             /* its bytes that are the counts of rules, classes and declarations, and the start sort */
    CLASSES = 2,
    DECLARATIONS = 3,
    START = 4,
    FIRST_CLASS = 64,      /* class 0 among the arguments of a rule; sorts are below */
    DECLARATION_BYTES = 3, /* its kind and two rules */
    FIRST_GROUP = 5,       /* the kinds from this on are of groups */
    PRODUCTION_BASE = 258, /* rule 0 in a listing; characters are below */
    RULES_MOST = 64,       /* rules of a book, or lines of a flat book */
    ARGUMENTS_MOST = 8,    /* arguments of a rule */
    CHAIN_MOST = 63,       /* declarations by which one rule is higher than another */
    NUMBERS_MOST = 32768,  /* numbers of the longest listing that is written */
    LINE_BYTES = 73,       /* bytes of a page for each number */
    NUMBER_START = 5,      /* bytes of such a line before the number, and those that are the number's */
    NUMBER_BYTES = 4,
    LINE_HIGHER = 1,       /* the line of conflicts that has a chain of declarations */
    KIND_NONE = 0,         /* the kinds of answers, and the numbers of refusals */
    KIND_ONE = 1,
    KIND_REFUSED = 3,
    LISTING_LONG = 11,
    CHART_SHORT = 20,
    NOT_THE_FORM = 27,
    NOT_A_READING = 29,
    TEXT_MOST = 200,     /* bytes of the longest line that is read */
    LISTING_MOST = 8192, /* and of the longest listing that is compared */
    FILE_MOST = 65536,   /* more bytes than a book, a line or a sheet may have */
    FLAT_MOST = 524288,  /* and than a flat book may have */
    PAGE_MOST = 524288,  /* and than a page may have; the listing of so long a one has less than FILE_MOST */
    INDENT_MOST = 40     /* below this level the depth is a number, or a deep tree would be printed as gigabytes of spaces */
};

typedef struct {
    uint8_t bytes[FILE_MOST];
    size_t length;
} Area;

static Area book, line, names, sheet;
static Area compared[2]; /* the listings of the first and the second reading */
static uint8_t listing[2 * NUMBERS_MOST];

static uint8_t flat_book[FLAT_MOST];
static size_t flat_length;
static uint8_t tops[RULES_MOST]; /* 1 for each line of the flat book that is allowed at the top */

static _Noreturn void fail(const char *format, ...) {
    va_list values;
    va_start(values, format);
    fputs("viewer: ", stderr);
    vfprintf(stderr, format, values);
    fputc('\n', stderr);
    va_end(values);
    exit(FAILED);
}

/* The system takes it back at the end. */
static void *reserve(size_t size, const char *what) {
    void *area = malloc(size);
    if (area == NULL) fail("no memory for %s of %zu bytes", what, size);
    return area;
}

/* ---- bytes and names */

static void print_byte(uint8_t byte) {
    if (byte == '\n' || byte == '\\')
        fputs(byte == '\n' ? "\\n" : "\\\\", stdout);
    else
        printf(byte >= ' ' && byte <= '~' ? "%c" : "\\%03u", byte);
}

static void print_bytes(const uint8_t *bytes, size_t length) {
    for (size_t i = 0; i < length; i++) print_byte(bytes[i]);
}

/* How long the line is that starts at a place. */
static size_t line_length(const Area *area, size_t start) {
    const uint8_t *end = memchr(area->bytes + start, '\n', area->length - start);
    return end == NULL ? area->length - start : (size_t)(end - (area->bytes + start));
}

/* The name of a rule between quotes, or if it has none, its number behind a word. */
static void print_name(size_t production, const char *quote, const char *word) {
    size_t start = 0;
    for (size_t left = production; left > 0 && start < names.length; left--) start += line_length(&names, start) + 1;
    size_t length = start < names.length ? line_length(&names, start) : 0;
    if (length == 0) {
        printf("%s%zu", word, production);
        return;
    }
    fputs(quote, stdout);
    print_bytes(names.bytes + start, length);
    fputs(quote, stdout);
}

/* ---- an accepted book */

static const uint8_t *argument_counts = book.bytes + HEADER;

static size_t argument_count(size_t production) { return argument_counts[production]; }

/* The bytes of a rule: its result, and then its arguments. They stand behind the counts of rules and classes. */
static const uint8_t *rule_bytes(size_t production) {
    const uint8_t *bytes = book.bytes + HEADER + book.bytes[RULES] + book.bytes[CLASSES];
    for (size_t p = 0; p < production; p++) bytes += 1 + argument_count(p);
    return bytes;
}

/* The numbers of the rules of the start sort. */
static void print_tops(void) {
    fputs("allowed at the top:", stderr);
    for (size_t p = 0; p < book.bytes[RULES]; p++)
        if (rule_bytes(p)[0] == book.bytes[START]) fprintf(stderr, " %zu", PRODUCTION_BASE + p);
    fputc('\n', stderr);
}

/* ---- an accepted flat book */

/* A line has a class for each argument, and one for its own number. */
static void count_arguments(void) {
    static uint8_t counts[RULES_MOST];
    size_t production = 0;
    for (size_t at = 0; at < flat_length; at++)
        if (flat_book[at] == '\n')
            counts[production++]--;
        else
            counts[production] += flat_book[at] == '[';
    argument_counts = counts;
}

/* ---- refusals in words */

static const char *const words_for[] = {
    [1] = "the book has %llu bytes, too few for its header or its counts",
    [2] = "byte %llu of the book, in its header, is out of range",
    [3] = "byte %llu of the book, a count of arguments or ranges, is too large",
    [4] = "the book's length is not the one that its counts call for; the smaller of the two is %llu",
    [5] = "byte %llu of the book, a result or an argument, names nothing",
    [7] = "byte %llu of the book, in a declaration, is no kind, names no rule, or is above the last rule of its group",
    [8] = "the rule at byte %llu of the book is equal to an earlier one: each argument is the same sort or the same set of characters",
    [9] = "rule %llu, counted from 0, is higher than itself, by a circle of declarations",
    [10] = "the line has %llu bytes; the most is 200",
    [LISTING_LONG] = "the listing has %llu bytes, too many for a page; the most is 8192",
    [CHART_SHORT] = "the chart is too short; it needs %llu bytes",
    [22] = "there is one reading, but it has more than %llu numbers, too many to show",
    [23] = "the listing is not right at number %llu, counted from 0",
    [24] = "the page is too short; it needs %llu bytes",
    [25] = "the sheet has %llu bytes; the most is 65535",
    [26] = "the summary is too short; the sheet has %llu lines",
    [NOT_THE_FORM] = "the flat book is not in the written form from byte %llu on",
    [28] = "number %llu, in a class or at the top, names no line of the flat book",
};

/* The line and column, counted from 1, of a byte of the flat book, or of its end. */
static void print_position(uint64_t place) {
    size_t row = 1, column = 1;
    for (size_t at = 0; at < place; at++) {
        column = flat_book[at] == '\n' ? 1 : column + 1;
        row += flat_book[at] == '\n';
    }
    fprintf(stderr, ", line %zu, column %zu%s", row, column, place == flat_length ? ", where it ends" : "");
}

/* The words may have the place in them. */
static int refuse_in(const char *words, uint64_t number, uint64_t place) {
    fprintf(stderr, "refused %llu %llu: ", (unsigned long long)number, (unsigned long long)place);
    fprintf(stderr, words, (unsigned long long)place);
    if (number == NOT_THE_FORM) print_position(place);
    fputc('\n', stderr);
    return REFUSED;
}

static int refuse(uint64_t number, uint64_t place) {
    const char *words = number < sizeof words_for / sizeof words_for[0] ? words_for[number] : NULL;
    return refuse_in(words != NULL ? words : "the place is %llu", number, place);
}

static int check_book(void) {
    uint64_t answer = meadowsink_check(book.bytes, book.length);
    return answer % 4 == KIND_REFUSED ? refuse(answer / 4, meadowsink_check_place(book.bytes, book.length)) : ANSWERED;
}

/* ---- the tree */

typedef struct {
    uint16_t number, depth;
    uint8_t start, end;       /* its text: lines have at most 200 bytes */
    uint8_t parent, argument; /* of which rule it is which argument; not for the root */
} Node;

static Node nodes[NUMBERS_MOST];
static uint8_t text_done; /* how much of the line the nodes up to now take */

static size_t production_of(const Node *node) { return (size_t)node->number - PRODUCTION_BASE; }

/*
 * Notes the depth and text of number i of the listing and of all below it, and of which rule each of these is which argument; gives the index behind them.
 * That they are the listing of a tree is proved.
 */
static size_t place_node(size_t i, uint16_t depth) {
    Node *node = &nodes[i];
    node->number = (uint16_t)(listing[2 * i] + 256 * listing[2 * i + 1]);
    node->depth = depth;
    node->start = text_done;
    i++;
    if (node->number < PRODUCTION_BASE) {
        text_done++;
    } else {
        for (uint8_t n = 0; n < argument_count(production_of(node)); n++) {
            nodes[i].parent = (uint8_t)production_of(node);
            nodes[i].argument = n;
            i = place_node(i, depth + 1);
        }
    }
    node->end = text_done;
    return i;
}

static void print_production(Node node) {
    print_name(production_of(&node), "", "rule ");
    fputs(node.start == node.end ? "   (empty)" : "   ", stdout);
    print_bytes(line.bytes + node.start, (size_t)(node.end - node.start));
}

static void print_node(Node node) {
    if (node.depth > INDENT_MOST)
        printf("%*slevel %u: ", 2 * INDENT_MOST, "", node.depth);
    else
        printf("%*s", 2 * node.depth, "");
    if (node.number < PRODUCTION_BASE) {
        fputs(node.number == '\'' ? "'\\" : "'", stdout);
        print_byte((uint8_t)node.number);
        putchar('\'');
    } else {
        print_production(node);
    }
    putchar('\n');
}

static int print_tree(size_t count) {
    puts("one reading");
    place_node(0, 0);
    for (size_t i = 0; i < count; i++) print_node(nodes[i]);
    return ANSWERED;
}

static int print_flat_tree(size_t count) {
    count_arguments();
    return print_tree(count);
}

/* ---- why a rule may not stand somewhere */

static uint8_t chain[CHAIN_MOST];

static uint64_t call_reason(int place, size_t p, size_t i, size_t q) {
    return (place ? meadowsink_reason_place : meadowsink_reason)(book.bytes, book.length, p, i, q, chain, sizeof chain);
}

/* In the words of a book's text. Declarations are the end of a book. */
static void print_declaration(size_t index) {
    static const char *const words[] = {"", "higher", "left", "right", "not-together", "left", "right", "not-together"};
    const uint8_t *declaration = book.bytes + book.length - DECLARATION_BYTES * (book.bytes[DECLARATIONS] - index);
    printf("declaration %zu, %s ", index, words[declaration[0]]);
    print_name(declaration[1], "", "r");
    fputs(declaration[0] < FIRST_GROUP ? " " : "..", stdout);
    print_name(declaration[2], "", "r");
}

/* Where rule q stands; `how` comes between it and the place. */
static void print_standing(size_t p, size_t i, size_t q, const char *how) {
    static const char *const which[] = {"first", "second", "third", "fourth", "fifth", "sixth", "seventh"};
    size_t count = argument_count(p);
    print_name(q, "`", "rule ");
    printf(" %s as the %s argument of ", how, count == 1 ? "only" : i == count - 1 ? "last" : which[i]);
    print_name(p, "`", "rule ");
}

/* The ranks forbid nothing, but only a rule of the argument's sort can stand there. */
static void print_free(size_t p, size_t i, size_t q) {
    uint8_t argument = rule_bytes(p)[1 + i];
    int fits = argument == rule_bytes(q)[0];
    if (!fits) fputs("no rank keeps ", stdout);
    print_standing(p, i, q, fits ? "may stand" : "from standing");
    puts(fits ? "" : argument < FIRST_CLASS ? ", but it gives another sort" : ", but that is a class of characters");
}

/* Whether rule q may stand as argument i of rule p, by the answer and the chain that the library gave. */
static void print_reason(uint64_t answer, size_t p, size_t i, size_t q) {
    size_t n = answer / 16;
    if (answer % 4 == KIND_NONE) {
        print_free(p, i, q);
        return;
    }
    print_standing(p, i, q, "may not stand");
    if (answer / 4 % 4 == LINE_HIGHER) {
        for (size_t k = 0; k < n; k++) {
            fputs(k == 0 ? ", which is higher: " : "; ", stdout);
            print_declaration(chain[k]);
        }
    } else {
        fputs(": ", stdout);
        print_declaration(n);
    }
    putchar('\n');
}

/* Each way, once, in which the ranks bar the tree of a listing of so many numbers. */
static void print_bars(size_t count) {
    static uint8_t asked[RULES_MOST][ARGUMENTS_MOST][RULES_MOST];
    place_node(0, 0);
    for (const Node *node = nodes + 1; node < nodes + count; node++) {
        if (node->number < PRODUCTION_BASE) continue;
        size_t p = node->parent, i = node->argument, q = production_of(node);
        if (asked[p][i][q]) continue;
        asked[p][i][q] = 1;
        uint64_t answer = call_reason(0, p, i, q);
        if (answer % 4 != KIND_NONE) print_reason(answer, p, i, q);
    }
}

/* ---- the page */

typedef uint64_t PageCall(const uint8_t *, size_t, const uint8_t *, size_t, const uint8_t *, size_t, uint8_t *, size_t);

static uint64_t call_page(PageCall *operation, size_t count, uint8_t *page, size_t size) {
    return operation(book.bytes, book.length, line.bytes, line.length, listing, 2 * count, page, size);
}

static int print_page(size_t count) {
    size_t size = LINE_BYTES * count;
    uint8_t *page = reserve(size, "a page");
    uint64_t answer = call_page(meadowsink_page, count, page, size);
    if (answer % 4 == KIND_REFUSED) return refuse(answer / 4, call_page(meadowsink_page_place, count, page, size));
    fwrite(page, 1, answer / 4, stdout);
    return ANSWERED;
}

/* ---- which of two readings is lower */

static uint64_t call_compare(int place) {
    return (place ? meadowsink_compare_place : meadowsink_compare)(book.bytes, book.length, line.bytes, line.length, compared[0].bytes, compared[0].length,
                                                                   compared[1].bytes, compared[1].length);
}

/* How often a reading uses each rule. */
static void count_rules(const Area *reading, size_t *counts) {
    for (size_t i = 0; i < reading->length; i += 2) {
        size_t number = reading->bytes[i] + 256u * reading->bytes[i + 1];
        if (number >= PRODUCTION_BASE) counts[number - PRODUCTION_BASE]++;
    }
}

static void print_counts(void) {
    size_t counts[2][RULES_MOST] = {{0}};
    for (size_t k = 0; k < 2; k++) count_rules(&compared[k], counts[k]);
    for (size_t p = 0; p < RULES_MOST; p++) {
        if (counts[0][p] == counts[1][p]) continue;
        print_name(p, "`", "rule ");
        printf(": %zu in the first, %zu in the second\n", counts[0][p], counts[1][p]);
    }
}

static int same_reading(void) {
    return compared[0].length == compared[1].length && memcmp(compared[0].bytes, compared[1].bytes, compared[0].length) == 0;
}

static int print_comparison(uint64_t value) {
    static const char *const words[] = {
        [MEADOWSINK_BELOW] = "the first reading is lower",
        [MEADOWSINK_EQUAL_COUNTS] = "both readings use each rule equally often",
        [MEADOWSINK_ABOVE] = "the second reading is lower",
        [MEADOWSINK_NEITHER] = "neither reading is lower",
    };
    fputs(words[value], stdout);
    if (value == MEADOWSINK_EQUAL_COUNTS) fputs(same_reading() ? "; they are the same" : "; they are not the same", stdout);
    putchar('\n');
    print_counts();
    return ANSWERED;
}

/* The second is refused only if the first is not too long; no page has a listing of an odd count of bytes. */
static int refuse_too_long(uint64_t place) {
    static const char *const words[] = {"the listing of the first page has %llu bytes; the most is 8192",
                                        "the listing of the second page has %llu bytes; the most is 8192"};
    return refuse_in(words[compared[0].length <= LISTING_MOST], LISTING_LONG, place);
}

/* The place says which of the two it is. */
static int refuse_not_a_reading(uint64_t place) {
    const Area *reading = &compared[place];
    uint64_t index = meadowsink_check_listing(book.bytes, book.length, line.bytes, line.length, reading->bytes, reading->length) / 4;
    char words[120];
    snprintf(words, sizeof words, "the %s page is not a reading of the line by this book, from its line %llu on%s", place == 0 ? "first" : "second",
             (unsigned long long)index + 1, index == reading->length / 2 ? ", where it ends" : "");
    return refuse_in(words, NOT_A_READING, place);
}

static int compare_readings(void) {
    uint64_t answer = call_compare(0);
    if (answer % 4 != KIND_REFUSED) return print_comparison(answer / 4);
    uint64_t number = answer / 4, place = call_compare(1);
    return number == LISTING_LONG ? refuse_too_long(place) : number == NOT_A_READING ? refuse_not_a_reading(place) : refuse(number, place);
}

/* ---- parsing a line */

/* The answer, or the place of its refusal. */
typedef uint64_t Call(int place, uint8_t *chart, size_t size);

static uint64_t by_book(int place, uint8_t *chart, size_t size) {
    return (place ? meadowsink_read_place : meadowsink_read)(book.bytes, book.length, line.bytes, line.length, chart, size, listing, sizeof listing);
}

static uint64_t by_flat(int place, uint8_t *chart, size_t size) {
    return (place ? meadowsink_read_flat_place : meadowsink_read_flat)(flat_book, flat_length, tops, sizeof tops, line.bytes, line.length, chart, size,
                                                                       listing, sizeof listing);
}

/* By the book without its declarations: they are its end, and their count is a byte of its header. */
static uint64_t by_book_without_ranks(uint8_t *chart, size_t size) {
    uint8_t count = book.bytes[DECLARATIONS];
    book.bytes[DECLARATIONS] = 0;
    book.length -= DECLARATION_BYTES * count;
    uint64_t answer = by_book(0, chart, size);
    book.bytes[DECLARATIONS] = count;
    book.length += DECLARATION_BYTES * count;
    return answer;
}

/* What the ranks have to do with it that there is no reading. Without them the book is accepted, too, and needs the same chart; a listing can be too long. */
static void explain_none(uint8_t *chart, size_t size) {
    uint64_t answer = book.bytes[DECLARATIONS] == 0 ? KIND_NONE : by_book_without_ranks(chart, size);
    if (answer % 4 == KIND_NONE) return;
    if (answer % 4 == KIND_ONE)
        print_bars(answer / 4);
    else
        printf("without the book's ranks the line would have %s\n", answer % 4 == KIND_REFUSED ? "one reading, too long to go through" : "several readings");
}

/*
 * The library says how long the chart must be, if it gets as far. `print_one` is given how many numbers the only reading has; `print_none`, which may be NULL,
 * is given the chart if there is none.
 */
static int parse_line(Call *call, int (*print_one)(size_t), void (*print_none)(uint8_t *, size_t)) {
    uint8_t *chart = NULL;
    size_t size = 0;
    uint64_t answer = call(0, chart, size);
    if (answer == 4 * CHART_SHORT + KIND_REFUSED) {
        size = call(1, chart, size);
        chart = reserve(size, "a chart");
        answer = call(0, chart, size);
    }
    if (answer % 4 == KIND_REFUSED) return refuse(answer / 4, call(1, chart, size));
    if (answer % 4 == KIND_ONE) return print_one(answer / 4);
    puts(answer % 4 == KIND_NONE ? "no reading" : "several readings");
    if (answer % 4 == KIND_NONE && print_none != NULL) print_none(chart, size);
    return ANSWERED;
}

/* ---- going down a sheet */

/* How long a chart the longest line needs that is not over its limit; the library says it of a chart of no bytes. */
static size_t chart_size(void) {
    size_t most = 0, longest = 0;
    for (size_t at = 0, length; at < sheet.length; at += length + 1) {
        length = line_length(&sheet, at);
        if (length <= TEXT_MOST && length >= most) {
            most = length;
            longest = at;
        }
    }
    return meadowsink_read_place(book.bytes, book.length, sheet.bytes + longest, most, NULL, 0, NULL, 0);
}

static double seconds(struct timespec from, struct timespec to) {
    return (double)(to.tv_sec - from.tv_sec) + 1e-9 * (double)(to.tv_nsec - from.tv_nsec);
}

/* From a second on, ten times a second, how far it is; `shown` says whether that stands there now. */
static void show_progress(size_t at, int *shown) {
    static struct timespec begun, last;
    struct timespec now;
    if (!isatty(STDERR_FILENO)) return;
    clock_gettime(CLOCK_MONOTONIC, &now);
    if (at == 0) begun = last = now;
    if (seconds(begun, now) < 1 || seconds(last, now) < 0.1) return;
    fprintf(stderr, "\r%zu of %zu bytes", at, sheet.length);
    last = now;
    *shown = 1;
}

static void hide_progress(int *shown) {
    if (*shown) fputs("\r\033[K", stderr);
    *shown = 0;
}

/* A chart that is long enough leaves only lines that are too long to be refused. */
static void print_line(size_t number, uint64_t byte, size_t start) {
    static const char *const words[] = {"no reading", "one reading", "several readings", "refused, over 200 bytes"};
    size_t length = line_length(&sheet, start);
    printf(length == 0 ? "%5zu  %s" : "%5zu  %-23s  ", number, words[byte]);
    print_bytes(sheet.bytes + start, length);
    putchar('\n');
}

static int walk_sheet(void) {
    size_t size = chart_size(), at = 0, number = 1;
    uint8_t *chart = reserve(size, "a chart");
    uint64_t answer;
    int status = ANSWERED, shown = 0;
    show_progress(at, &shown);
    while ((answer = meadowsink_sheet_step(book.bytes, book.length, sheet.bytes, sheet.length, at, chart, size)) % 4 == KIND_ONE) {
        uint64_t next = answer / 16, byte = answer / 4 % 4;
        hide_progress(&shown);
        print_line(number++, byte, at);
        if (byte != KIND_ONE) status = NOT_ALL_ONE;
        at = (size_t)next;
        show_progress(at, &shown);
    }
    hide_progress(&shown);
    if (answer % 4 == KIND_NONE) return status;
    return refuse(answer / 4, meadowsink_sheet_step_place(book.bytes, book.length, sheet.bytes, sheet.length, at, chart, size));
}

/* ---- the flat book */

static int print_flat(void) {
    size_t size = meadowsink_flat_place(book.bytes, book.length, NULL, 0);
    uint8_t *text = reserve(size, "a flat book");
    uint64_t answer = meadowsink_flat(book.bytes, book.length, text, size);
    fwrite(text, 1, answer / 4, stdout);
    fflush(stdout);
    print_tops();
    return ANSWERED;
}

/* ---- files and options */

static size_t load(uint8_t *bytes, size_t most, FILE *in, const char *name) {
    if (in == NULL) fail("%s can't be opened: %s", name, strerror(errno));
    size_t length = fread(bytes, 1, most, in);
    int more = length == most && fgetc(in) != EOF;
    if (ferror(in)) fail("%s can't be read", name);
    if (more) fail("%s has more than %zu bytes", name, most);
    if (in != stdin) fclose(in);
    return length;
}

static void load_line(const char *given) {
    if (given == NULL) {
        line.length = load(line.bytes, FILE_MOST, stdin, "standard input");
        const uint8_t *end = memchr(line.bytes, '\n', line.length);
        if (end != NULL && end + 1 < line.bytes + line.length) fail("standard input has more than one line");
        if (end != NULL) line.length--;
        return;
    }
    line.length = strlen(given);
    if (line.length > FILE_MOST) fail("the line has more than %d bytes", FILE_MOST);
    memcpy(line.bytes, given, line.length);
}

static void load_file(Area *area, const char *name) { area->length = load(area->bytes, FILE_MOST, fopen(name, "rb"), name); }

/* The number in these columns of a page: digits with spaces before them. Says whether there is one. */
static int is_listed(const uint8_t *columns, unsigned *number) {
    size_t i = 0;
    while (i < NUMBER_BYTES - 1 && columns[i] == ' ') i++;
    for (*number = 0; i < NUMBER_BYTES && columns[i] >= '0' && columns[i] <= '9'; i++) *number = 10 * *number + columns[i] - '0';
    return i == NUMBER_BYTES;
}

/* The numbers of a page, two bytes each. */
static void load_page(Area *reading, const char *name) {
    static uint8_t page[PAGE_MOST];
    size_t length = load(page, PAGE_MOST, fopen(name, "rb"), name);
    for (size_t at = 0, row = 1; at < length; at += LINE_BYTES, row++) {
        const uint8_t *end = memchr(page + at, '\n', length - at);
        unsigned number;
        if (end == NULL || end - (page + at) != LINE_BYTES - 1) fail("%s: line %zu: a line of a page has %d bytes with its line feed", name, row, LINE_BYTES);
        if (!is_listed(page + at + NUMBER_START, &number)) fail("%s: line %zu: a line of a page has a number in columns 6 to 9", name, row);
        reading->bytes[reading->length++] = (uint8_t)(number % 256);
        reading->bytes[reading->length++] = (uint8_t)(number / 256);
    }
}

/* Goes past a number of three digits, and gives the line of a flat book that has it, or RULES_MOST. */
static size_t top_line(const char **at) {
    size_t number = 0, digits = 0;
    for (; digits < 3 && **at >= '0' && **at <= '9'; digits++) number = 10 * number + (size_t)(*(*at)++ - '0');
    return number >= PRODUCTION_BASE && number < PRODUCTION_BASE + RULES_MOST ? number - PRODUCTION_BASE : RULES_MOST;
}

/* Numbers and rising ranges of them, with a comma between any two. */
static void load_tops(const char *given) {
    const char *at = given;
    int more = 1;
    while (more) {
        size_t low = top_line(&at), high = low;
        if (*at == '-') {
            at++;
            high = top_line(&at);
        }
        more = *at == ',';
        if (low > high || high == RULES_MOST || (!more && *at != '\0')) fail("--top takes numbers from 258 to 321, such as 258,261-263, and not \"%s\"", given);
        for (size_t r = low; r <= high; r++) tops[r] = 1;
        at += more;
    }
}

/* A number in base ten; if it is too large for a size_t, it is one that no rule and no argument has. */
static int is_number(const char *word, size_t *number) {
    size_t digits = strspn(word, "0123456789");
    *number = strtoul(word, NULL, 10);
    return digits > 0 && word[digits] == '\0';
}

static size_t find_argument(const char *word) {
    size_t number;
    if (!is_number(word, &number)) fail("an argument is a number, counted from 0, and not \"%s\"", word);
    return number;
}

/* The rule with this name, or else this number. An empty line is no name. */
static size_t find_production(const char *word) {
    size_t length = strlen(word), number;
    for (size_t at = 0, production = 0; length > 0 && at < names.length; at += line_length(&names, at) + 1, production++)
        if (line_length(&names, at) == length && memcmp(names.bytes + at, word, length) == 0) return production;
    if (!is_number(word, &number)) fail("a rule is a name in NAMES, or a number, counted from 0, and not \"%s\"", word);
    return number;
}

/* Goes past the option if it is the next word, and says whether it is. */
static int option(const char *name, int count, char **words, int *at) {
    int given = *at < count && strcmp(words[*at], name) == 0;
    *at += given;
    return given;
}

static _Noreturn void misused(void) {
    fail("usage: viewer [--page] [--names NAMES] BOOK [LINE]  or  viewer --sheet SHEET BOOK  or  viewer --flat BOOK"
         "  or  viewer --from-flat FLAT --top NUMBERS [LINE]  or  viewer --why [--names NAMES] BOOK P I Q");
}

static int view_by_flat(int count, char **words, int at) {
    const char *name = words[at++];
    const char *numbers = option("--top", count, words, &at) ? words[at++] : NULL;
    if (numbers == NULL || count > at + 1) misused();
    load_tops(numbers);
    flat_length = load(flat_book, FLAT_MOST, fopen(name, "rb"), name);
    load_line(words[at]);
    return parse_line(by_flat, print_flat_tree, NULL);
}

/* An accepted book is refused only for what it is asked. */
static int view_reason(int count, char **words, int at) {
    const char *named = option("--names", count, words, &at) ? words[at++] : NULL;
    if (count != at + 4) misused();
    if (named != NULL) load_file(&names, named);
    load_file(&book, words[at]);
    size_t p = find_production(words[at + 1]), i = find_argument(words[at + 2]), q = find_production(words[at + 3]);
    if (check_book() != ANSWERED) return REFUSED;
    uint64_t answer = call_reason(0, p, i, q);
    if (answer % 4 == KIND_REFUSED) return refuse_in("there is no such rule or argument; they are counted from 0", answer / 4, call_reason(1, p, i, q));
    print_reason(answer, p, i, q);
    return ANSWERED;
}

static int view_comparison(int count, char **words, int at) {
    char **pages = words + at;
    at += 2;
    const char *named = option("--names", count, words, &at) ? words[at++] : NULL;
    if (count <= at || count > at + 2) misused();
    if (named != NULL) load_file(&names, named);
    load_file(&book, words[at]);
    for (size_t k = 0; k < 2; k++) load_page(&compared[k], pages[k]);
    load_line(words[at + 1]);
    if (check_book() != ANSWERED) return REFUSED;
    return compare_readings();
}

static int view_by_book(int count, char **words, int at) {
    int flat = option("--flat", count, words, &at);
    const char *lines = !flat && option("--sheet", count, words, &at) ? words[at++] : NULL;
    int whole = flat || lines != NULL;
    int paged = !whole && option("--page", count, words, &at);
    const char *named = !whole && option("--names", count, words, &at) ? words[at++] : NULL;
    if (count <= at || count > at + (whole ? 1 : 2)) misused();
    if (named != NULL) load_file(&names, named);
    load_file(&book, words[at]);
    if (lines != NULL) load_file(&sheet, lines);
    if (!whole) load_line(words[at + 1]);
    if (check_book() != ANSWERED) return REFUSED;
    return flat            ? print_flat()
           : lines != NULL ? walk_sheet()
           : paged         ? parse_line(by_book, print_page, NULL)
                           : parse_line(by_book, print_tree, explain_none);
}

int main(int count, char **words) {
    int at = 1;
    int (*view)(int, char **, int) = option("--from-flat", count, words, &at) ? view_by_flat
                                     : option("--why", count, words, &at)     ? view_reason
                                     : option("--compare", count, words, &at) ? view_comparison
                                                                              : view_by_book;
    int status = view(count, words, at);
    if (fflush(stdout) != 0 || ferror(stdout)) fail("standard output can't be written");
    return status;
}
