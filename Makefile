# `make help` lists the targets. Needs rt (the Rattle kit), cargo, and for the example a C compiler.

LIBRARY := target/staticlib/libduskstall.a
PROGRAM := target/bin/inspect
CRATES := crates.txt $(shell find crates \( -name must-fail -o -name out \) -prune -o \( -name '*.rt' -o -name '*.antt' \) -print)

CFLAGS := -Wall -Wextra -Wpedantic -Werror -I include
ENROL := examples/enrol.c examples/host.c examples/show.c
BUILT := target/examples

.PHONY: help demo example test bench stack library program clean

help: ## this list
	@sed -n 's/^\([a-z]*\):[^#]*## /  make \1\t/p' Makefile | expand -t 18

demo: $(LIBRARY) ## three boards enrol over a hostile line, step by step (SEED=n: another line)
	@cd host && cargo run --release --offline --quiet --bin demo -- $(SEED)

example: $(BUILT)/enrol ## one board enrols, from C; held to its stored transcript
	@$< > $(BUILT)/enrol.out; status=$$?; cat $(BUILT)/enrol.out; exit $$status
	@diff examples/enrol.expected $(BUILT)/enrol.out
	@echo "as in examples/enrol.expected"

test: ## the gate: all proofs, must-fail edits, tests and examples
	.ci/run

bench: $(LIBRARY) ## the speed of the proved reader and writer beside those in Rust, and that of the calls
	@cd host && cargo run --release --offline --quiet --bin bench

stack: $(BUILT)/stack ## the stack that each function of the library uses
	@$<

library: $(LIBRARY) ## target/staticlib/libduskstall.a, for C and Rust

program: $(PROGRAM) ## target/bin/inspect, which prints where a message's parts are

clean: ## removes all that was built, the proofs too
	rm -rf target host/target crates/*/out

# The proofs of the library's crates, if they are not there or not of these files, and then the library.
$(LIBRARY): $(CRATES)
	cd crates/duskstall_c && rt lib
	mkdir -p $(@D)
	cp crates/duskstall_c/out/libduskstall_c.a $@

$(PROGRAM): $(CRATES)
	cd crates/inspect && rt run <stdin
	mkdir -p $(@D)
	cp crates/inspect/out/inspect $@

$(BUILT):
	mkdir -p $@

$(BUILT)/enrol: $(ENROL) examples/enrol.h include/duskstall.h $(LIBRARY) | $(BUILT)
	$(CC) -std=c99 $(CFLAGS) $(ENROL) $(LIBRARY) -o $@

# The header by itself, as C and as C++.
$(BUILT)/header_check: examples/header_check.c include/duskstall.h $(LIBRARY) | $(BUILT)
	$(CC) -std=c99 $(CFLAGS) examples/header_check.c $(LIBRARY) -o $@

$(BUILT)/header_check_cpp: examples/header_check.c include/duskstall.h $(LIBRARY) | $(BUILT)
	$(CXX) -std=c++11 $(CFLAGS) -x c++ examples/header_check.c -x none $(LIBRARY) -o $@

# The stack that each function uses; the C library's functions bound before, so that this is not counted.
$(BUILT)/stack: examples/stack.c include/duskstall.h $(LIBRARY) | $(BUILT)
	$(CC) -std=c11 -O2 $(CFLAGS) examples/stack.c $(LIBRARY) -pthread -Wl,-z,now -o $@

# The example in the header's comment, with a main around it.
$(BUILT)/comment.c: include/duskstall.h Makefile | $(BUILT)
	{ echo '#include "enrol.h"'; sed -n '/^ \*     \(size_t compose\|int enrol\)(/,/^ \*     }$$/s/^ \*     //p' $<; \
	  echo 'int main(void) { return enrol(); }'; } > $@

$(BUILT)/comment: $(BUILT)/comment.c examples/host.c examples/enrol.h $(LIBRARY)
	$(CC) -std=c99 $(CFLAGS) -I examples $< examples/host.c $(LIBRARY) -o $@
