# make test runs everything that the gate runs; its last line is that of rt ci.
# rt ci keeps what it proved for its next run; what a crate's own check proves stays in that crate's out/, and a later check begins with it.

BUILD := build
OUT := crates/meadowsink/out
LIBRARY := $(OUT)/libmeadowsink.a
RUSTC := rustc --edition 2021 -O
LINK := -L $(OUT) -l static=meadowsink
PROGRAMS := flat reading
CASE_CRATES := grammar_cases conflict_cases flat_cases listing_cases page_cases sheet_cases
# how many random cases the second parser compares
CASES := 100000
MANY_CASES := 1000000

.PHONY: run test lib programs viewer stack constants sizes unused second second-long faults examples check-examples bench places books check-books cases store-cases check clean

# the line 8/4*2 read by book T
run:
	@mkdir -p $(BUILD)
	@cd crates/reading && rt run < /dev/null > ../../$(BUILD)/run.log 2>&1 || { cat ../../$(BUILD)/run.log; exit 1; }
	@cd crates/reading/data && ../out/reading < ../stdin

# the library for C, in code that runs on every processor of x86-64
lib:
	cd crates/meadowsink && rt lib --cpu x86-64

test:
	sh tests/ci.sh $(BUILD)
	$(MAKE) cases check-books unused
	$(MAKE) lib
	$(MAKE) -j2 viewer check-examples constants second stack programs
	@cat $(BUILD)/ci.last

# the programs flat and reading, run
programs:
	mkdir -p $(BUILD)/programs
	for p in $(PROGRAMS); do (cd crates/$$p && rt run < /dev/null > /dev/null) && cp crates/$$p/out/$$p $(BUILD)/programs || exit 1; done
	sh tests/programs.sh $(BUILD)/programs

# the C program that uses every call
viewer: $(LIBRARY)
	mkdir -p $(BUILD)
	gcc -std=c11 -Wall -Wextra -Werror -O2 -o $(BUILD)/viewer tests/viewer_call.c $(LIBRARY)
	$(BUILD)/viewer

# each call with a small stack; READ_STACK, CALL_STACK and THREAD_STACK set other sizes, in kilobytes
stack: $(BUILD)/stack_call $(BUILD)/stack_thread $(BUILD)/book
	sh tests/stack.sh $(BUILD)/stack_call $(BUILD)/stack_thread $(BUILD)/book

# the library has no constant of more than 64 bytes, whole or in pieces
constants: $(LIBRARY)
	sh tests/constants_cases.sh
	sh tests/constants.sh $(LIBRARY)

# in bytes, how large the library is, how large its functions are, what a program takes of it that makes one call, and how much stack each call takes
sizes: $(LIBRARY) $(BUILD)/stack_call $(BUILD)/stack_thread $(BUILD)/book
	sh tests/constants.sh $(LIBRARY)
	size -A -d $(LIBRARY) | awk '$$1 ~ /^\.text\./ { print substr($$1, 7), $$2 }' | sort -k 2,2nr
	sh tests/weights.sh $(LIBRARY)
	sh tests/stack.sh $(BUILD)/stack_call $(BUILD)/stack_thread $(BUILD)/book --need

$(BUILD)/stack_call: tests/stack_call.c include/meadowsink.h $(LIBRARY)
	mkdir -p $(BUILD)
	gcc -std=c11 -Wall -Wextra -Werror -O2 -o $@ $< $(LIBRARY)

$(BUILD)/stack_thread: tests/stack_thread.rs tests/second/library.rs tests/second/prng.rs $(LIBRARY)
	mkdir -p $(BUILD)
	$(RUSTC) -o $@ $< $(LINK)

$(LIBRARY):
	$(MAKE) lib

# ---- what nothing uses

# imports, and crates in crates.txt
unused: $(BUILD)/unused
	$(BUILD)/unused .

$(BUILD)/unused: tools/unused.rs
	mkdir -p $(BUILD)
	$(RUSTC) -o $@ $<

# ---- independent evidence

# every call against the second parser, on random cases
second: $(BUILD)/second
	$(BUILD)/second $(CASES)

second-long: $(BUILD)/second
	$(BUILD)/second $(MANY_CASES)

$(BUILD)/second: tests/second/*.rs $(LIBRARY)
	mkdir -p $(BUILD)
	$(RUSTC) -o $@ tests/second/main.rs $(LINK)

# each fault of the list is refused by the prover or caught by the second parser; docs/FAULTS.md has a recorded run
faults: $(BUILD)/faults
	$(BUILD)/faults tests/faults.txt $${TMPDIR:-/tmp}/meadowsink-faults

$(BUILD)/faults: tools/faults.rs
	mkdir -p $(BUILD)
	$(RUSTC) -o $@ $<

# ---- examples

# the sheet viewer, the wrapper for Rust, and the tool that makes books; with the library as it stands: make lib makes it anew
examples: $(BUILD)/examples/viewer $(BUILD)/examples/wrapper $(BUILD)/book

$(BUILD)/examples/viewer: examples/viewer.c include/meadowsink.h $(LIBRARY)
	mkdir -p $(@D)
	gcc -std=c11 -Wall -Wextra -Werror -O2 -o $@ $< $(LIBRARY)

$(BUILD)/examples/wrapper: examples/rust/main.rs examples/rust/meadowsink.rs books/T.book $(LIBRARY)
	mkdir -p $(@D)
	$(RUSTC) -o $@ $< $(LINK)

# what the examples print is what is stored
check-examples: examples
	sh tests/examples.sh $(BUILD)/examples $(BUILD)/book

# ---- books

# write the books anew, after an edit of their texts
books: $(BUILD)/book
	for t in books/*.txt; do $(BUILD)/book $$t $${t%.txt}.book || exit 1; done

# the books are those of their texts
check-books: $(BUILD)/book
	sh tests/books.sh $(BUILD)/book

$(BUILD)/book: tools/book/*.rs
	mkdir -p $(BUILD)
	$(RUSTC) -o $@ tools/book/main.rs

# ---- speed

# how long the library takes on the books of books/, and how long an ordinary Rust program takes
bench: $(BUILD)/bench
	$(BUILD)/bench books

$(BUILD)/bench: tools/bench/*.rs $(LIBRARY)
	mkdir -p $(BUILD)
	$(RUSTC) -o $@ tools/bench/main.rs $(LINK)

# the calls of OTHER, another archive of the library, beside this one's, each linked at four places: make places OTHER=FILE BOOK=FILE TEXT=FILE
places: $(LIBRARY)
	sh tests/places.sh $(BOOK) $(TEXT) $(OTHER) $(LIBRARY)

# ---- stored cases

# the stored input and output of the case programs are those of their readable lists
cases: $(BUILD)/cases
	for c in $(CASE_CRATES); do \
	    $(BUILD)/cases crates/$$c/cases.txt $(BUILD)/$$c.stdin $(BUILD)/$$c.stdout && \
	    cmp $(BUILD)/$$c.stdin crates/$$c/stdin && cmp $(BUILD)/$$c.stdout crates/$$c/stdout || exit 1; \
	done

# write them anew after an edit of a list
store-cases: $(BUILD)/cases
	for c in $(CASE_CRATES); do $(BUILD)/cases crates/$$c/cases.txt crates/$$c/stdin crates/$$c/stdout || exit 1; done

$(BUILD)/cases: tools/cases.rs
	mkdir -p $(BUILD)
	$(RUSTC) -o $@ $<

check:
	rt all check

clean:
	rm -rf crates/*/out $(BUILD)
