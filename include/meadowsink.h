/* Meadowsink: how many parses a text has, proved right for every grammar and every text within the limits below. */
#ifndef MEADOWSINK_H
#define MEADOWSINK_H

#include <stddef.h>
#include <stdint.h>

#ifdef __cplusplus
extern "C" {
#endif

/*
 * Limits. A grammar (a "book") has at most 32 sorts, 64 rules of at most 8 arguments, 64 classes of at most 16 ranges, and 255 declarations, a group of rules
 * counting as one; a flat text at most 64 lines of at most 8 arguments; a text has at most 200 bytes, a sheet at most 65,535. What is over a limit is refused.
 *
 * Areas. Each area is a pointer and a length in bytes. A `const` area is only read, and such areas may overlap one another; an area that is written must not
 * overlap any other. What it holds before a call doesn't matter. An area of length 0 may have any pointer, NULL too.
 *
 * Stack. Every call needs less than 2 MB of stack, and those that parse a text or the lines of a sheet less than 512 KB, whatever the book.
 *
 * Memory. The library keeps nothing between calls and has no data that is written to. It has no constant of more than 64 bytes.
 *
 * Two calls to an operation. The first gives its answer, 4 * value + kind, where kind 3 is a refusal and the value its number. The second, whose name ends
 * in `_place`, takes the same areas, does the same to them, and gives the place of the refusal; it is 0 if nothing is refused, but 0 may also be a place.
 * meadowsink_text_under refuses nothing, so it has no second call, and its result is not of this form.
 *
 * Refusals, with their places. Bytes and rules are counted from 0. The book's refusals, 1 to 9, come before the others, and so do those of a flat text, 27 and
 * 28. No refusal has the number 6: a range has the characters between its two ends, whichever of them stands first.
 *
 *   1    the book is too short for its header or for its counts. Place: the book's length.
 *   2    a byte of its header is out of range. Place: which byte of the book.
 *   3    a rule has more than 8 arguments or a class more than 16 ranges. Place: the byte of the count.
 *   4    the book's length is not the one its counts call for. Place: the smaller of the two.
 *   5    a result or argument names nothing. Place: its byte.
 *   7    a declaration has no such kind or names no rule, or a group's first rule is above its last. Place: its byte; for the group that of the first rule.
 *        For meadowsink_conflict and meadowsink_reason also: there is no such rule or no such argument. Place: 0.
 *   8    two rules are equal: their results are, and each argument is the same sort or the same set of characters, whatever class names it. Place: the byte at which the
 *        later one starts.
 *   9    a rule is ranked above itself. Place: the rule, the lowest such.
 *   10   the text has more than 200 bytes. Place: how many.
 *   11   the listing, or one of two, has an odd count of bytes, or more than 8,192. Place: how many.
 *   20   the chart is too short: it needs A * (n + 1) * (n + 2) / 2 bytes, where n is the length of the text and A the sum, over all rules or lines of the flat
 *        text, of the number of arguments + 1. Place: how many it needs.
 *   21   the written grammar doesn't fit. Place: how many bytes it needs.
 *   22   there is one parse, but its listing doesn't fit. Place: how many numbers of it are written.
 *   23   the listing is not right. Place: the index, from 0, that meadowsink_check_listing gives.
 *   24   the page doesn't fit. Place: how many bytes it needs, 73 for each number of the listing.
 *   25   the sheet has more than 65,535 bytes. Place: how many.
 *   26   the summary is too short: it needs a byte for each line. Place: how many lines the sheet has.
 *   27   the flat text is not in the written form, which meadowsink_check_flat tells. Place: the first byte at which no text of that form goes on so, or the
 *        flat text's length if it is only cut short.
 *   28   a class of the flat text, or the root, names a line that is not there. Place: the line's number, 258 + r for line r; the first such in the flat text,
 *        else the lowest at the root.
 *   29   one of two listings is not right. Place: 0 if it is the first, 1 if it is only the second.
 */

/*
 * Checks a grammar (a "book").
 *
 *   book     the bytes of the grammar
 *
 * The result is 4 * value + kind:
 *
 *   kind 0   accepted; the value is 0.
 *   kind 3   refused; the value is the number of the refusal, 1 to 9.
 */
uint64_t meadowsink_check(const uint8_t *book, size_t book_length);

/* The place of the refusal. */
uint64_t meadowsink_check_place(const uint8_t *book, size_t book_length);

/*
 * Asks whether the ranks of a book keep a rule from standing somewhere.
 *
 *   book     the bytes of the grammar
 *   p, i, q  may rule q stand as argument i of rule p? Rules and arguments are counted from 0.
 *
 * The result is 4 * value + kind:
 *
 *   kind 0   no conflict: the ranks don't forbid it; the value is 0. A rule whose result is not that argument is no conflict either.
 *   kind 1   a conflict: the ranks forbid it; the value is 0.
 *   kind 3   refused; the value is the number of the refusal, 1 to 9.
 */
uint64_t meadowsink_conflict(const uint8_t *book, size_t book_length, size_t p, size_t i, size_t q);

/* The place of the refusal. */
uint64_t meadowsink_conflict_place(const uint8_t *book, size_t book_length, size_t p, size_t i, size_t q);

/*
 * Asks the same, and for what is behind a conflict. Three lines make a conflict where rule q gives the sort of argument i of rule p:
 *
 *   line 1   p is higher than q;
 *   line 2   argument i is the first of two or more, and the pair is declared right or not together;
 *   line 3   argument i is the last of two or more, and the pair is declared left or not together.
 *
 *   book     the bytes of the grammar
 *   p, i, q  as for meadowsink_conflict
 *   chain    where the declarations go by which p is higher than q; there are never more than 63
 *
 * The result is 4 * value + kind:
 *
 *   kind 0   no conflict; the value is 0. `chain` is as it was.
 *   kind 1   a conflict; the value is 4 * n + line, for the lowest line that holds. Declarations are counted from 0.
 *            Line 1: n declarations of kind 1 lead from p to q, the second rule of each the first rule of the next, and no fewer do. Their indices stand at the
 *            start of `chain`, a byte each, as many as fit; bytes beyond them are as they were. If several such rows are equally short, it is one of them.
 *            Lines 2 and 3: n is the index of the lowest declaration, of two rules or of a group, of a kind that the line names and that covers the pair, either
 *            way round. `chain` is as it was.
 *   kind 3   refused; the value is the number of the refusal, 1 to 9, as for meadowsink_conflict. `chain` is as it was.
 */
uint64_t meadowsink_reason(const uint8_t *book, size_t book_length, size_t p, size_t i, size_t q, uint8_t *chain, size_t chain_length);

/* The place of the refusal. It writes to `chain` as meadowsink_reason does. */
uint64_t meadowsink_reason_place(const uint8_t *book, size_t book_length, size_t p, size_t i, size_t q, uint8_t *chain, size_t chain_length);

/*
 * Writes the character class grammar of a book: a grammar with the same parses that needs no ranks, as text, a line to a rule.
 *
 *   book     the bytes of the grammar
 *   out      where the text goes
 *
 * The result is 4 * value + kind:
 *
 *   kind 1   written; the value is how many bytes. They stand at the start of `out`. Bytes beyond them are as they were.
 *   kind 3   refused; the value is the number of the refusal, 1 to 9 or 21. `out` is as it was.
 *
 * To learn how many bytes are needed, make the call with an `out` of length 0. An accepted book is then always refused with 21, as its text is never empty,
 * and meadowsink_flat_place gives the bytes; any other number is a fault of the book, whose place it then gives.
 */
uint64_t meadowsink_flat(const uint8_t *book, size_t book_length, uint8_t *out, size_t out_length);

/* The place of the refusal. It writes to `out` as meadowsink_flat does. */
uint64_t meadowsink_flat_place(const uint8_t *book, size_t book_length, uint8_t *out, size_t out_length);

/*
 * Parses a text by a book.
 *
 *   book     the bytes of the grammar
 *   text     the bytes of the text, at most 200
 *   chart    room to work in; refusal 20 says how much. Afterwards it starts with a byte for each rule in order, each count d of arguments from 0 to all,
 *            each start i and each end j with 0 <= i <= j <= n, n the text's length, the last changing fastest: how many lists of trees for the rule's first
 *            d arguments spell the text from i to j, 0, 1, or 2 for more. Bytes beyond these are as they were.
 *   listing  where the numbers of the parse go
 *
 * The result is 4 * value + kind:
 *
 *   kind 0   no parse; the value is 0.
 *   kind 1   one parse; the value is how many numbers its listing has. They stand at the start of `listing`, two bytes a number, low byte first:
 *            258 + r for rule r, or a character, a rule before its arguments. Bytes beyond them are as they were.
 *   kind 2   two parses or more; the value is 0.
 *   kind 3   refused; the value is the number of the refusal, 1 to 10, 20 or 22. By 22 the first numbers of the listing are written, as many as fit whole:
 *            the smaller of `listing_length` and 65,536, halved.
 *
 * At most the first 65,536 bytes of `listing` are used. After kinds 0 and 2 it is as it was. After a refusal other than 22 all areas are as they were.
 */
uint64_t meadowsink_read(const uint8_t *book, size_t book_length, const uint8_t *text, size_t text_length, uint8_t *chart, size_t chart_length,
                         uint8_t *listing, size_t listing_length);

/* The place of the refusal. It parses, and writes to `chart` and `listing`, as meadowsink_read does. */
uint64_t meadowsink_read_place(const uint8_t *book, size_t book_length, const uint8_t *text, size_t text_length, uint8_t *chart, size_t chart_length,
                               uint8_t *listing, size_t listing_length);

/*
 * Checks whether numbers are the listing of a parse of a text by a book.
 *
 *   book     the bytes of the grammar
 *   text     the bytes of the text, at most 200
 *   listing  the numbers, as meadowsink_read writes them; at most 8,192 bytes
 *
 * The result is 4 * value + kind:
 *
 *   kind 0   right: they are; the value is 0.
 *   kind 1   wrong: they are not; the value is the index, from 0, of the first number that is wrong. If a number is missing, or text is left over behind
 *            all of them, it is how many there are.
 *   kind 3   refused; the value is the number of the refusal, 1 to 11.
 */
uint64_t meadowsink_check_listing(const uint8_t *book, size_t book_length, const uint8_t *text, size_t text_length, const uint8_t *listing,
                                  size_t listing_length);

/* The place of the refusal. */
uint64_t meadowsink_check_listing_place(const uint8_t *book, size_t book_length, const uint8_t *text, size_t text_length, const uint8_t *listing,
                                        size_t listing_length);

/*
 * Writes the page of a parse: a line for each number of its listing, in the listing's order.
 *
 *   book     the bytes of the grammar
 *   text     the bytes of the text, at most 200
 *   listing  the numbers, as meadowsink_read writes them; at most 8,192 bytes
 *   page     where the lines go
 *
 * A line has 73 bytes, which are its columns 1 to 73:
 *
 *   1 to 4     the depth: 0 for the first number, and for each argument of a rule one more than for the rule
 *   6 to 9     the number: 258 + r for rule r, or a character
 *   11 to 13   where its text starts, as an index into `text`, from 0. The text of a rule is what its arguments spell, that of a character is its one byte.
 *   15 to 17   where its text ends: the index after its last byte, so equal to the start if the text is empty
 *   19 to 72   the first 54 bytes of its text, and spaces if it has fewer; a byte below 32 or above 126 is written as a full stop
 *   73         a line feed, byte 10
 *
 * The four figures are in base ten and set right, with spaces before them. Columns 5, 10, 14 and 18 are spaces.
 *
 * The result is 4 * value + kind:
 *
 *   kind 1   written; the value is how many bytes. They stand at the start of `page`. Bytes beyond them are as they were.
 *   kind 3   refused; the value is the number of the refusal: one of 1 to 9, else the first of 10, 11, 23 and 24. `page` is as it was.
 *
 * A page needs 73 bytes for each number of the listing: 73 times the value of meadowsink_read, kind 1. Or make the call with a `page` of length 0. It is then
 * refused with 24 if nothing else is wrong, as a listing that is right is never empty, and meadowsink_page_place gives the bytes; any other number is a fault
 * of the book, the text or the listing, whose place it then gives.
 */
uint64_t meadowsink_page(const uint8_t *book, size_t book_length, const uint8_t *text, size_t text_length, const uint8_t *listing, size_t listing_length,
                         uint8_t *page, size_t page_length);

/* The place of the refusal. It writes to `page` as meadowsink_page does. */
uint64_t meadowsink_page_place(const uint8_t *book, size_t book_length, const uint8_t *text, size_t text_length, const uint8_t *listing,
                               size_t listing_length, uint8_t *page, size_t page_length);

/*
 * Tells which part of a text is under a number of a listing: the text that the number's line of the page speaks of, whole.
 *
 *   book     the bytes of the grammar
 *   text     the bytes of the text, at most 200
 *   listing  the numbers, as meadowsink_read writes them; at most 8,192 bytes
 *   index    which number of the listing, from 0
 *
 * The result is 256 * start + end. The part is the `end - start` bytes at `text + start`: bytes of the caller's own text, which are not copied, so any number
 * of callers may use them and other parts of it at once, for as long as they keep the text.
 *
 * For an index that the listing doesn't have, and where meadowsink_page would be refused by 1 to 11 or 23, the result is 0, the empty part at the text's start.
 * An empty part there may also be the answer; meadowsink_check_listing says whether the listing is right.
 */
uint64_t meadowsink_text_under(const uint8_t *book, size_t book_length, const uint8_t *text, size_t text_length, const uint8_t *listing,
                               size_t listing_length, size_t index);

/*
 * Tells which of two parses of a text is lower: the one that does with fewer uses of the highest rules. For a text with several parses.
 *
 *   book     the bytes of the grammar
 *   text     the bytes of the text, at most 200
 *   first    the numbers of one parse, as meadowsink_read writes them; at most 8,192 bytes
 *   second   those of the other, of the same form
 *
 * It counts how often each parse uses each rule; characters don't count. A parse is below another if these counts differ and, for each rule that it uses more
 * often, there is a rule higher than that one that it uses less often. Higher is by the ranks, directly or through other rules.
 *
 * The result is 4 * value + kind:
 *
 *   kind 1   compared; the value is MEADOWSINK_BELOW if the first is below the second, MEADOWSINK_ABOVE if the second is below the first,
 *            MEADOWSINK_EQUAL_COUNTS if they use each rule equally often, be they the same parse or not, and MEADOWSINK_NEITHER if it is none of these.
 *   kind 3   refused; the value is the number of the refusal: one of 1 to 9, else the first of 10, 11 for `first`, 11 for `second`, 29 for `first` and 29 for
 *            `second`.
 */
uint64_t meadowsink_compare(const uint8_t *book, size_t book_length, const uint8_t *text, size_t text_length, const uint8_t *first, size_t first_length,
                            const uint8_t *second, size_t second_length);

/* The place of the refusal. */
uint64_t meadowsink_compare_place(const uint8_t *book, size_t book_length, const uint8_t *text, size_t text_length, const uint8_t *first,
                                  size_t first_length, const uint8_t *second, size_t second_length);

/* The values of meadowsink_compare. */
enum {
    MEADOWSINK_BELOW = 0,
    MEADOWSINK_EQUAL_COUNTS = 1,
    MEADOWSINK_ABOVE = 2,
    MEADOWSINK_NEITHER = 3
};

/*
 * Reads the lines of a sheet, each by itself.
 *
 *   book     the bytes of the grammar
 *   sheet    the bytes of the sheet, at most 65,535. A line feed, byte 10, ends a line and is no part of it; what follows the last one is a line too if it
 *            isn't empty. So a sheet of no bytes has no line, and a line feed alone is one empty line.
 *   chart    room to work in, as meadowsink_read has it, for the longest line. Afterwards it is as if meadowsink_read had read each line in turn.
 *   summary  where a byte for each line goes: 0 no parse, 1 one parse, 2 two or more, 3 refused. A line is refused if it has more than 200 bytes or the chart
 *            is too short for it (10 or 20); it then leaves the chart as it was, and the next line is read. No listing is written, so a line with one parse is
 *            1 however long the listing is.
 *
 * The result is 4 * value + kind:
 *
 *   kind 1   read; the value is how many lines there are. Their bytes stand at the start of `summary`. Bytes beyond them are as they were.
 *   kind 3   refused; the value is the number of the refusal: one of 1 to 9, else the first of 25 and 26. `chart` and `summary` are as they were.
 *
 * A sheet has no more lines than bytes. Or make the call with a `summary` of length 0: if it is refused with 26, meadowsink_sheet_place gives the lines.
 */
uint64_t meadowsink_sheet(const uint8_t *book, size_t book_length, const uint8_t *sheet, size_t sheet_length, uint8_t *chart, size_t chart_length,
                          uint8_t *summary, size_t summary_length);

/* The place of the refusal. It reads, and writes to `chart` and `summary`, as meadowsink_sheet does. */
uint64_t meadowsink_sheet_place(const uint8_t *book, size_t book_length, const uint8_t *sheet, size_t sheet_length, uint8_t *chart, size_t chart_length,
                                uint8_t *summary, size_t summary_length);

/*
 * Takes a step down a sheet: reads the line that starts at a place. For going down line by line; the whole sheet at once is faster, as the book is then made
 * ready only once.
 *
 *   book     the bytes of the grammar
 *   sheet    the bytes of the sheet, at most 65,535
 *   start    where the line starts, as an index into `sheet`, from 0. Inside a line its rest is the line; at a line feed that is an empty line.
 *   chart    room to work in, as for meadowsink_sheet. Afterwards it is as meadowsink_read leaves it for this line.
 *
 * The result is 4 * value + kind:
 *
 *   kind 0   no line is left: the start is at or past the end of the sheet; the value is 0. `chart` is as it was.
 *   kind 1   a line; the value is 4 * next + byte, where `next` is where the next line starts: behind the line feed, or at the end of the sheet if there is
 *            none. `byte` is that of the line in a summary; if it is 3, the line is refused, and `chart` is as it was.
 *   kind 3   refused; the value is the number of the refusal: one of 1 to 9, else 25. `chart` is as it was.
 *
 * Begun at 0, and then each time at `next`, with the chart handed on, the bytes are those that meadowsink_sheet writes for a chart of that length, and the
 * chart is in the end as meadowsink_sheet leaves it.
 */
uint64_t meadowsink_sheet_step(const uint8_t *book, size_t book_length, const uint8_t *sheet, size_t sheet_length, size_t start, uint8_t *chart,
                               size_t chart_length);

/* The place of the refusal, 0 also for a line whose byte is 3. It reads, and writes to `chart`, as meadowsink_sheet_step does. */
uint64_t meadowsink_sheet_step_place(const uint8_t *book, size_t book_length, const uint8_t *sheet, size_t sheet_length, size_t start, uint8_t *chart,
                                     size_t chart_length);

/*
 * Checks a flat text: a character class grammar in exactly the form in which meadowsink_flat writes it.
 *
 *   flat     the bytes of the flat text
 *
 * It has 1 to 64 lines, each ended by a line feed, byte 10. A line has a class and a space for each argument, of which there are at most 8; then `->`, a space,
 * and a class with the line's own number alone, 258 + r for line r, counted from 0. A class is `[`, its ranges with nothing between them, and `]`. It has
 * characters only, 0 to 255, or numbers of lines only, 258 to 321, or nothing. A range is `\n`, or `\a-\b` with a below b, in base ten and with no zero in
 * front. The ranges of a class rise, and no two of them touch.
 *
 * The result is 4 * value + kind:
 *
 *   kind 1   accepted; the value is how many lines there are.
 *   kind 3   refused; the value is the number of the refusal: 27, else 28 for a class.
 */
uint64_t meadowsink_check_flat(const uint8_t *flat, size_t flat_length);

/* The place of the refusal. */
uint64_t meadowsink_check_flat_place(const uint8_t *flat, size_t flat_length);

/*
 * Parses a text by a flat text alone. A parse is a tree of its lines.
 *
 *   flat     the bytes of the flat text, as meadowsink_check_flat has it
 *   roots    which lines are allowed at the root: line r, 0 to 63, is allowed if byte r is there and is not 0. Bytes from 64 on are ignored.
 *   text     the bytes of the text, at most 200
 *   chart    room to work in, as meadowsink_read has it, with lines for rules
 *   listing  where the numbers of the parse go
 *
 * The result is 4 * value + kind:
 *
 *   kind 0   no parse; the value is 0.
 *   kind 1   one parse; the value is how many numbers its listing has. They stand at the start of `listing`, as meadowsink_read writes them, 258 + r for
 *            line r. Bytes beyond them are as they were.
 *   kind 2   two parses or more; the value is 0.
 *   kind 3   refused; the value is the number of the refusal, the first of 27, 28, 10, 20 and 22. By 22 the first numbers of the listing are written, as
 *            meadowsink_read does.
 *
 * At most the first 65,536 bytes of `listing` are used. After kinds 0 and 2 it is as it was. After a refusal other than 22 all areas are as they were.
 *
 * By the flat text that meadowsink_flat writes for a book, with the rules of the book's start sort allowed at the root, the result and all bytes afterwards are
 * those of meadowsink_read by the book.
 */
uint64_t meadowsink_read_flat(const uint8_t *flat, size_t flat_length, const uint8_t *roots, size_t roots_length, const uint8_t *text, size_t text_length,
                              uint8_t *chart, size_t chart_length, uint8_t *listing, size_t listing_length);

/* The place of the refusal. It parses, and writes to `chart` and `listing`, as meadowsink_read_flat does. */
uint64_t meadowsink_read_flat_place(const uint8_t *flat, size_t flat_length, const uint8_t *roots, size_t roots_length, const uint8_t *text,
                                    size_t text_length, uint8_t *chart, size_t chart_length, uint8_t *listing, size_t listing_length);

#ifdef __cplusplus
}
#endif

#endif
