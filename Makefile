# Needs the Rattle toolchain (rt), and cargo for the host and the oracle, on the PATH. Cargo uses no registry.
CARGO := cargo --offline --quiet

.NOTPARALLEL:
.PHONY: desk test linked archive host compare hostile oracle freeze bench check fmt clean

# The main job: the archive and the host, and with them a day at the desk on the maps of samples/.
desk:
	@test -e host/target/release/desk || test -n "$$CLEATMOW_ARCHIVE_DIR" || \
		echo "The first time, the crates under the C calls are proved, which takes minutes." >&2
	@cd host && $(CARGO) run --release --bin desk -- day --samples ../samples

# All checks: rt ci, which has the layout of the files, every crate, every must-fail edit and every program; then, over what is
# proved, what links the archive. The last line of rt ci, 'N passed, 0 failed', is printed last, if all passed.
test:
	@sh verdict.sh $(MAKE) --no-print-directory linked

# The host's tests and the comparison, with one archive for both.
linked: archive
	@CLEATMOW_ARCHIVE_DIR=../target/staticlib $(MAKE) --no-print-directory host compare

# The archive of the C calls, under the name that hosts link. rt names it after the crate.
archive:
	@cd crates/cleatmow_c && rt lib
	@mkdir -p target/staticlib && cp crates/cleatmow_c/out/libcleatmow_c.a target/staticlib/libcleatmow.a

# The Rust host: it makes the archive of the C calls, links it and tests it.
host:
	@cd host && cargo fmt --check && $(CARGO) test

# The Rust crate as a judge: its doors' tests, what docs/DIFFERENCES.md says, with the Rust's overflow checks and, by
# --release, without them, and the live comparison.
compare:
	@cd oracle && cargo fmt --check && $(CARGO) test && $(CARGO) test --release --test differences
	@cd oracle && $(CARGO) run --bin compare

# Hostile input, in minutes: a million damaged copies of good inputs through each C call, with guard octets about every
# buffer; then fewer, in blocks of their own size, under valgrind, where it is there and the machine is x86-64; 10,000
# damaged GRIB2 files through the command; one point by itself at every place of a real map; and run-length on every payload
# of up to two octets with every b, declared as 0 to 20 points. A few thousand damaged inputs, 1,000 files, 1,636 places and
# 1,025 such payloads are part of `host`.
MEMCHECK := ["valgrind", "--quiet", "--error-exitcode=1", "--redzone-size=256"]
hostile:
	@cd host && $(CARGO) test --release --test hostile -- --ignored --exact --nocapture a_million_of_each
	@if [ "$$(uname -m)" != x86_64 ]; then \
		echo "Not run under valgrind: the calls run under an emulator, where it does not see them."; \
	elif command -v valgrind >/dev/null; then \
		cd host && $(CARGO) test --release --test hostile --config 'target."cfg(all())".runner = $(MEMCHECK)' \
			-- --ignored --exact --nocapture in_blocks_of_their_own && \
		echo "Under valgrind: no octet outside was read or written."; \
	else \
		echo "Not run under valgrind: it is not installed."; \
	fi
	@cd host && $(CARGO) test --release --test desk -- --ignored --exact chance::ten_thousand_damaged_files
	@cd host && $(CARGO) test --release --test point -- --ignored --exact every_place_of_the_real_map
	@cd host && $(CARGO) test --release --test run_length -- --ignored --exact --nocapture every_payload_of_up_to_two_octets

# The live comparison at scale, in minutes: millions of inputs for each operation, and the tables of docs/DIFFERENCES.md.
oracle:
	@cd oracle && $(CARGO) run --bin compare -- at_scale

# The oracle's answers that the program `vectors` replays.
freeze:
	@cd oracle && $(CARGO) run --bin freeze -- ../crates/vectors/stdin

# Ours and the Rust's on the same inputs, in one run; and instructions a point.
bench:
	@sh oracle/bench.sh

# Prove what has changed, and what depends on it.
check:
	@rt all check

# Bring the files under crates/ into the toolchain's layout.
fmt:
	@for crate in crates/*/; do (cd "$$crate" && rt fmt) || exit; done

# Remove what was made.
clean:
	@rm -rf target host/target oracle/target crates/*/out
