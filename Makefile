# run, calls, answer, vectors, test: the toolchain is enough, and lib also needs ar. example and bench also need a C compiler, differential
# python3, OpenSSL 3, rustc and valgrind, installation a C++ compiler and pkg-config.
JOURNAL = crates/list_journal/stdin
VECTORS = crates/vectors/stdin
REQUESTS = crates/answer_requests/stdin
CALLS = crates/answer_calls/stdin
COUNT = 100000
LIBRARY_COUNT = 1000000
SEED = 1
ROUNDS = 10000

.PHONY: run calls answer vectors test build differential library-differential bench

# Lists a journal of the rollover ledger, document 01's sample or that of a file: make run JOURNAL=file
run: build-list_journal
	@target/bin/list_journal <'$(JOURNAL)'

# Answers calls on one ledger (steps, cookies made, cookies checked), the stored ones or those of a file: make calls CALLS=file
calls: build-answer_calls
	@target/bin/answer_calls <'$(CALLS)'

# Answers requests, the stored ones or those of a file: make answer REQUESTS=file
answer: build-answer_requests
	@target/bin/answer_requests <'$(REQUESTS)'

# Runs the compiled code on vectors, the stored ones or those of a file: make vectors VECTORS=file
vectors: build-vectors
	@target/bin/vectors <'$(VECTORS)'

# The gate.
test:
	@.ci/run

build: build-vectors build-read_requests build-answer_requests build-answer_calls build-list_journal

# Proves and builds a program. rt also runs what it has built, here on no input.
build-%:
	@mkdir -p target/bin
	@(cd crates/$* && rt run </dev/null) >target/$*.log 2>&1 || { cat target/$*.log; exit 1; }
	@install crates/$*/out/$* target/bin/

# A program's stored output, and COUNT random lines or records from SEED, against an independent implementation; then how often each
# kind of answer came: a 0 there is an answer that they never reached.
define compare
	tests/$(2) <crates/$(1)/stdin | cmp - crates/$(1)/stdout
	tests/$(2) --random $(COUNT) --seed $(SEED) >target/lines
	target/bin/$(1) <target/lines >target/got
	tests/$(2) <target/lines | cmp - target/got
	@tests/$(2) --tally <target/got
	@echo "$(1), $(COUNT) from seed $(SEED): the same output"
endef

# The same for the library: at least LIBRARY_COUNT calls of each kind from SEED, then fewer under valgrind. It has a reference of its own
# (tests/differential), written from the papers and the header alone.
library-differential: lib
	rustc --edition 2021 -O -L target/lib -l static=dnscookie tests/differential/main.rs -o target/differential
	target/differential --count $(LIBRARY_COUNT) --seed $(SEED)
	valgrind -q --error-exitcode=1 target/differential --count 2000 --seed $(SEED) --few >target/valgrind.out
	@echo 'the library, $(LIBRARY_COUNT) of each from seed $(SEED): no difference; 2000 of each under valgrind: no error'

differential: library-differential build
	$(call compare,vectors,expected.py)
	$(call compare,read_requests,requests.py)
	$(call compare,answer_requests,answers.py)
	tests/journals.py <crates/list_tail/stdin | cmp - crates/list_tail/stdout
	$(call compare,list_journal,journals.py)
	$(call compare,answer_calls,calls.py)

# Times of the library against plain C, and libknot where it is installed, in turns: docs/BENCHMARK.md.
bench: lib build-list_journal
	@bench/run $(ROUNDS)

# ---- the library for C: docs/INTEGRATION.md

PREFIX = /usr/local
DESTDIR =
installed = $(DESTDIR)$(abspath $(PREFIX))
version = $(shell sed -n 's/^\#define DNSCOOKIE_VERSION "\(.*\)"/\1/p' include/dnscookie.h)
pkgconfig = sed 's|@PREFIX@|$(abspath $(PREFIX))|; s|@VERSION@|$(version)|' dnscookie.pc.in

.PHONY: lib install example installation

# Proves the library and puts it under target/, with its header and a pkg-config file for PREFIX. Where it isn't proved nothing is there.
# It is compiled for any x86-64: rt's own choice is a newer one, and a library doesn't test where it runs.
# dnscookie_find is compiled by itself and joined: the parser is then laid into it and into dnscookie_respond, and both are faster.
lib:
	@rm -rf target/lib target/include
	@mkdir -p target/lib/pkgconfig target/include
	@(cd crates/dnscookie_c && rt lib --cpu x86-64) >target/dnscookie.log 2>&1 || { cat target/dnscookie.log; exit 1; }
	@(cd crates/dnscookie_find_c && rt lib --cpu x86-64) >target/dnscookie.log 2>&1 || { cat target/dnscookie.log; exit 1; }
	@cd target/lib && ar x ../../crates/dnscookie_c/out/libdnscookie_c.a && ar x ../../crates/dnscookie_find_c/out/libdnscookie_find_c.a
	@cd target/lib && ar rcs libdnscookie.a dnscookie_c.o dnscookie_find_c.o && rm dnscookie_c.o dnscookie_find_c.o
	@cp include/dnscookie.h target/include/
	@$(pkgconfig) >target/lib/pkgconfig/dnscookie.pc

# Installs what make lib made: make install PREFIX=/usr/local. A packager adds DESTDIR=folder.
install:
	@test -f target/lib/libdnscookie.a || { echo 'make lib comes first' >&2; exit 1; }
	@mkdir -p '$(installed)/include' '$(installed)/lib/pkgconfig'
	@install -m 644 target/include/dnscookie.h '$(installed)/include/'
	@install -m 644 target/lib/libdnscookie.a '$(installed)/lib/'
	@$(pkgconfig) >'$(installed)/lib/pkgconfig/dnscookie.pc'
	@chmod 644 '$(installed)/lib/pkgconfig/dnscookie.pc'

# Compiles the example against target/, runs it and compares what it prints; then the excerpts in docs/INTEGRATION.md with its lines, and
# the header's numbers and functions with those that crates/dnscookie has.
example: lib
	@$(CC) -std=c99 -Wall -Wextra -pedantic -O2 -Itarget/include tests/example.c -o target/example -Ltarget/lib -ldnscookie
	@rm -f target/example.journal
	@target/example target/example.journal >target/example.out
	@diff tests/example.expected target/example.out
	@awk -f tests/excerpts.awk tests/example.c docs/INTEGRATION.md
	@$(CC) -std=c99 -Wall -Wextra -pedantic -Itarget/include tests/header.c -o target/header
	@target/header
	@echo 'example: the same output'

# Installs into a folder of its own and uses what is there, by pkg-config alone.
installation: lib
	@CC='$(CC)' CXX='$(CXX)' tests/install.sh
