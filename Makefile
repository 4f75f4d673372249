# make run                the sheet of the example list
# make poster             the gate poster of the example list
# make lib                the C library, target/staticlib/libwave_plan.a
# make shared             the same as a shared library, target/staticlib/libwave_plan.so
# make desk               the dispatcher's program, target/bin/desk
# make install PREFIX=..  programs, library, headers and a pkg-config file into bin, lib and include of that folder (DESTDIR=..: below that one)
# make dev CRATE=rule     rechecks one crate while it is worked on, in seconds: not the verdict
# make check              every proof, no must-fail edit, and all programs and the library; what has not changed is not proved again
# make papers             docs, header and README against the sources, in seconds
# make quick              the tests alone, over the programs and the library as they are built
# make must-fail          every must-fail edit, over the crates as they are proved (CRATE=rule: those of one crate)
# make test               every proof, every must-fail edit, every test: the gate
# make bench              times against colouring from scratch, in Rust, C++ and Python, into docs/BENCHMARKS.md (BENCH=quick: a few repeats, into target/bench)
# make fmt                the layout of all sources
PACKAGES = bindings/rust desk tests/independent tests/program tests/library bench

NAMES = sheet poster doubt crew agree
PROGRAMS = $(addprefix target/bin/,$(NAMES))
ARCHIVE = target/staticlib/libwave_plan.a
SHARED = target/staticlib/libwave_plan.so
SONAME = libwave_plan.so.0

.PHONY: run poster lib shared desk install dev check papers quick must-fail test bench fmt
.SILENT: run poster lib dev papers quick must-fail test $(PROGRAMS) $(ARCHIVE)
.NOTPARALLEL: # rt and cargo use all cores
SHELL = bash
.SHELLFLAGS = -o pipefail -c

run:
	tools/build sheet
	target/bin/sheet <examples/depot.list

poster:
	tools/build poster
	target/bin/poster <examples/depot.list

# As files, library and programs are built only where they are missing: make lib and make check bring them up to date.
lib $(ARCHIVE):
	tools/build wave_plan

$(PROGRAMS):
	tools/build $(@F)

shared: $(SHARED)
$(SHARED): $(ARCHIVE)
	cc -shared -Wl,-z,defs -Wl,-soname,$(SONAME) -Wl,--whole-archive $< -Wl,--no-whole-archive -o $@

desk target/bin/desk: $(ARCHIVE)
	cd desk && cargo build --release --target-dir target
	install -D desk/target/release/desk target/bin/desk

# Without PREFIX there is nothing that installs, as "$(TO)/bin" would be one of the system's folders.
ifdef PREFIX
TO = $(DESTDIR)$(PREFIX)
install: $(PROGRAMS) target/bin/desk $(ARCHIVE) $(SHARED)
	install -d "$(TO)/bin" "$(TO)/lib/pkgconfig" "$(TO)/include"
	install $(PROGRAMS) target/bin/desk "$(TO)/bin"
	install -m 644 $(ARCHIVE) "$(TO)/lib"
	install -m 644 $(SHARED) "$(TO)/lib/$(SONAME)"
	ln -sf $(SONAME) "$(TO)/lib/libwave_plan.so"
	install -m 644 include/wave_plan.h include/wave_plan_memory.h "$(TO)/include"
	install -m 644 include/wave_plan.pc "$(TO)/lib/pkgconfig"
else
install:
	@echo "make install PREFIX=FOLDER [DESTDIR=FOLDER]" >&2; exit 2
endif

dev:
	$(if $(CRATE),cd crates/$(CRATE) && rt check,echo "make dev CRATE=NAME, one of:" $$(sed -n 's/^\([a-z_]*\).*:.*/\1/p' crates.txt); exit 2)

check:
	rt all check
	tools/build $(NAMES) function_text wave_plan

papers:
	tests/papers

quick:
	tests/run quick

must-fail:
	rt must-fail $(CRATE)
	$(if $(CRATE),,tests/must-not-compile/run)

test:
	tests/run

bench:
	tools/build sheet wave_plan bench_edit
	bench/peers/build
	cd bench && cargo run --release -- $(BENCH)

fmt:
	for c in crates/*; do (cd $$c && rt fmt) || exit; done
	for p in $(PACKAGES); do (cd $$p && cargo fmt) || exit; done
