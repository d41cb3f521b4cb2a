# make test   the gate: prove everything from nothing, try the edits that must be refused, test the archives. Its last line is 'N passed, 0 failed'.
# make lib    prove the libraries, write the archives for firmware and for hosts, and put them with their headers into target/tdisp
# make demo   a card of three interfaces to look at; target/bin/card replays scripts: see docs/CARD.md
# make bench  the proved responder and an ordinary one, side by side: see docs/SPEED.md
.PHONY: test names lib card demo bench

CFLAGS = -std=c11 -O2 -Wall -Wextra -Werror
ARCHIVE = target/tdisp/libtdisp.a
HOST_ARCHIVE = target/tdisp/libtdisp_host.a
BUILT = $(ARCHIVE) $(HOST_ARCHIVE) target/tdisp/tdisp.h target/tdisp/tdisp_host.h
OBJCOPY ?= objcopy
# Of the processor nothing is asked beyond x86-64 itself: the kit's default wants x86-64-v2, and an archive cannot check what it runs on.
CPU = --cpu x86-64

test:
	@rt version
	@grep -qF "$$(rt version)" README.md || echo "note: README.md pins another version of the kit"
	@tools/test

names:
	@tools/names

# Both archives have the report reader; the host's is weak, so that a program may link both, in any order.
lib:
	@mkdir -p target/tdisp
	@for crate in tdisp tdisp_host; do \
	    { (cd crates/$$crate && rt lib $(CPU)) > target/lib.log 2>&1 && ! grep '^logic=.* cpu=' target/lib.log; } || { cat target/lib.log; exit 1; }; \
	done
	@cp crates/tdisp/out/libtdisp.a crates/tdisp_host/out/libtdisp_host.a c/tdisp.h c/tdisp_host.h target/tdisp/
	@$(OBJCOPY) --weaken-symbol=tdisp_read_report $(HOST_ARCHIVE)
	@echo "target/tdisp has libtdisp.a and tdisp.h, libtdisp_host.a and tdisp_host.h"

# Programs in C, each of its source and the archives that it uses; the test for hosts with both, in one order and in the other.
target/c/test: PARTS = c/test.c $(ARCHIVE)
target/c/example: PARTS = c/example.c $(ARCHIVE)
target/c/test_host: PARTS = c/test_host.c $(HOST_ARCHIVE) $(ARCHIVE)
target/c/test_host_turned: PARTS = -DTURNED c/test_host.c $(ARCHIVE) $(HOST_ARCHIVE)
target/c/host_example: PARTS = c/host_example.c $(HOST_ARCHIVE)

target/c/test target/c/example target/c/test_host target/c/test_host_turned target/c/host_example: $(wildcard c/*) $(BUILT)
	@mkdir -p target/c
	$(CC) $(CFLAGS) -Itarget/tdisp $(PARTS) -o $@

$(BUILT):
	@$(MAKE) --no-print-directory lib

# The program: proved, built, and run once without arguments, which shows the demo.
card:
	@mkdir -p target/bin
	@(cd crates/card && rt run $(CPU)) > target/demo 2> target/card.log < /dev/null || { cat target/card.log; exit 1; }
	@cp crates/card/out/card target/bin/card

demo: card
	@cat target/demo

bench: lib
	@cd rust && cargo run --release --offline --quiet --package compare --bin bench
