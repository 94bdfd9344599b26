# Recipes are bash scripts: one shell each, stopped by the first failure, in a pipeline too.
SHELL := /bin/bash
.SHELLFLAGS := -euo pipefail -c
.ONESHELL:
.PHONY: pair tool library example test bench beside climb fuzz check clean

# The programs that each target needs. What is missing is named before anything is begun.
needs-pair := rt
needs-library := rt
needs-example := rt cc
needs-tool := rt cargo cc
needs-test := rt cargo cc objdump python3 script
needs-bench := rt cargo cc valgrind
needs-beside := rt cargo cc
needs-climb := rt cargo cc
needs-fuzz := rt clang
needs-check := rt
missing = $(strip $(foreach program,$(needs-$1),$(if $(shell command -v $(program)),,$(program))))
$(foreach goal,$(or $(MAKECMDGOALS),pair),$(if $(call missing,$(goal)),$(error make $(goal) needs what is not there: $(call missing,$(goal)))))

# Has rt prove a crate and what it stands on, and then build it: proving CRATE WORDS.. runs `rt check` and `rt WORDS..` in the folder
# of the crate. Each crate is named as its check begins; where something fails, all that rt printed is shown. What rt said of the
# crate stays in target/log/CRATE.say.
define proving
proving() {
	mkdir -p target/log
	say=$$PWD/target/log/$$1.say
	built=$$PWD/target/log/$$1.built
	if [ ! -e crates/symbol/out ]; then
		echo "Everything is proved before it is built, crate by crate. The first time this takes some eight to ten minutes."
	fi
	cd "crates/$$1"
	rt check 2>&1 | tee "$$say" | sed --unbuffered -nE 's/^rt: chose .* for ([a-z0-9_]+)$$/\1/p' || { cat "$$say"; exit 1; }
	rt "$${@:2}" > "$$built" 2>&1 || { cat "$$built"; exit 1; }
	cd ../..
}
endef

# Proves and builds the pair program and all that it stands on, and runs it on the worked example.
pair:
	@$(proving)
	proving pair run < crates/pair/stdin
	mkdir -p target/bin
	install -C -m 755 crates/pair/out/pair target/bin/pair
	target/bin/pair < crates/pair/stdin

# Proves the core and writes target/library: libsigxume.a and sigxume.h, for C, and for the Rust crate in library/.
library:
	@$(proving)
	proving capi lib
	mkdir -p target/library
	install -C -m 644 crates/capi/out/libcapi.a target/library/libsigxume.a
	install -C -m 644 c/sigxume.h target/library/sigxume.h
	echo "target/library has libsigxume.a and sigxume.h."

# Builds the C example and runs it: it must print what the pair program prints. Where there is a C++ compiler it takes the header too.
example: library
	@mkdir -p target/c
	cc -std=c99 -Wall -Wextra -Wpedantic -Werror -O2 -I target/library c/example.c target/library/libsigxume.a -o target/c/example
	target/c/example | tee target/c/listing
	cmp target/c/listing crates/pair/stdout
	if command -v c++ > /dev/null; then
		c++ -Wall -Wextra -Wpedantic -Werror -I target/library -fsyntax-only -x c++ - <<< '#include "sigxume.h"'
	fi

# Builds the command-line tool, target/bin/sigxume.
tool: library
	@cargo build --quiet --release --package sigxume-tool
	mkdir -p target/bin
	install -C -m 755 target/cargo/release/sigxume target/bin/sigxume
	echo "The command is target/bin/sigxume."

# Proves every crate and tries every must-fail edit (of what an earlier run of `rt ci` on this machine passed, only what has changed),
# then runs the tests of the library, the C example, the tool and the test program; ends with the last line of `rt ci`. An edit that
# does not fit the text any more counts as a failure too, which rt alone only tells.
test:
	@log=$$(mktemp)
	trap 'rm -f "$$log"' EXIT
	rt ci 2>&1 | tee "$$log"
	if grep -qE '^rt: ok.*, [1-9][0-9]* bad' "$$log"; then
		echo "A must-fail edit is bad: it does not fit the text that it edits, or does not compile." >&2
		exit 1
	fi
	make --no-print-directory pair tool example
	cargo test --quiet --package sigxume
	cargo run --quiet --profile checked --bin tests
	grep -E '^[0-9]+ passed, [0-9]+ failed$$' "$$log" | tail -n 1

# Times the engines beside the baselines and counts their instructions, in one run; fails where an answer differs or a promise is
# not kept.
bench: tool
	@cargo run --quiet --release --bin benchmark

# Times both engines beside those of an earlier build, in one run: EARLIER is the folder that has its libsigxume.a, such as the
# target/library of another checkout; fails where an answer differs.
beside: library
	@if [ ! -f "$(EARLIER)/libsigxume.a" ]; then
		echo "make beside needs EARLIER, a folder that has a libsigxume.a." >&2
		exit 2
	fi
	cargo build --quiet --release --bin benchmark
	SIGXUME_LIBRARY="$(abspath $(EARLIER))" cargo build --quiet --release --bin benchmark --target-dir target/beside
	target/cargo/release/benchmark beside target/beside/release/benchmark

# Searches for inputs on which the engines are slow, for CLIMB_SECONDS, and prints the slowest as text from which they can be made
# again; fails where a tiling differs from that of the port of Wise's program.
CLIMB_SECONDS ?= 600
CLIMB_SEED ?= 1
climb: library
	@cargo run --quiet --release --bin benchmark climb $(CLIMB_SECONDS) $(CLIMB_SEED)

# Tries the C interface with libFuzzer for FUZZ_SECONDS, from the corpus that earlier runs left in target/fuzz.
FUZZ_SECONDS ?= 600
fuzz: library
	@mkdir -p target/fuzz/corpus
	clang -std=c99 -Wall -Wextra -Wpedantic -Werror -DSEEDS -I target/library c/fuzz.c target/library/libsigxume.a -o target/fuzz/seeds
	target/fuzz/seeds target/fuzz/corpus < crates/pair/stdin
	clang -std=c99 -Wall -Wextra -Wpedantic -Werror -g -O1 -fsanitize=fuzzer,address,undefined -fno-sanitize-recover=undefined \
		-I target/library c/fuzz.c target/library/libsigxume.a -o target/fuzz/fuzz
	echo "Fuzzing for $(FUZZ_SECONDS) seconds; the log is target/fuzz/log."
	target/fuzz/fuzz -max_len=20000 -timeout=20 -max_total_time=$(FUZZ_SECONDS) -print_final_stats=1 \
		-artifact_prefix=target/fuzz/ target/fuzz/corpus > target/fuzz/log 2>&1 || { tail -n 60 target/fuzz/log; exit 1; }
	grep -E 'DONE|^stat::' target/fuzz/log

# The quick loop: proves what has changed.
check:
	@rt all check

# Removes all that was built.
clean:
	@rm -rf target crates/*/out
