# `make` proves, builds and runs the program on a collection; README.md has the other commands, with their times.
PREFIX = /usr/local
PROGRAM = crates/nonograde/out/nonograde
LIBRARY = out/library/libnonograde.so.0
# What the program and the library are built of: what installs or packs them builds them again if any of this is newer.
SOURCES = $(wildcard crates.txt) $(shell find crates \( -name out -o -name '*_tests' -o -name nonograde_c \) -prune -o \
	\( -name '*.rt' -o -name '*.antt' \) -print)
LIBRARY_SOURCES = $(SOURCES) $(shell find crates -name out -prune -o -path 'crates/nonograde_c/*' \
	\( -name '*.rt' -o -name '*.antt' \) -print)

$(PROGRAM): $(SOURCES)
program $(PROGRAM):
	@command -v rt >/dev/null || { echo 'make: the program is older than its sources; building it needs rt' >&2; exit 1; }
	cd crates/nonograde && rt run -- survey <../../puzzles/collection.txt
	@touch -c $(PROGRAM)
test:
	tools/gate.sh
wrong-bodies:
	tools/wrong_bodies.sh $(CRATES)
instructions: $(PROGRAM)
	benches/run.py record
look:
	cd crates/nonograde && rt try --data heart.non=../../puzzles/heart.non -- solve heart.non
$(LIBRARY): $(LIBRARY_SOURCES)
library $(LIBRARY):
	@command -v rt >/dev/null || { echo 'make: the library is older than its sources; building it needs rt' >&2; exit 1; }
	tools/library.sh
	@touch -c $(LIBRARY)
install: $(PROGRAM)
	@tools/install.sh "$(DESTDIR)$(PREFIX)"
install-library: $(LIBRARY)
	@tools/install.sh --library "$(DESTDIR)$(PREFIX)" "$(PREFIX)"
uninstall:
	@tools/install.sh --remove "$(DESTDIR)$(PREFIX)"
dist: $(PROGRAM) $(LIBRARY)
	@tools/install.sh --pack out
wheel: $(LIBRARY)
	@python/backend.py out/library out
# `make wrong-bodies CRATES='line_core solve_core'` tries those of some crates, without names those of all.
# `make instructions` records how many instructions the program takes, of which the gate fails if they rise.
.PHONY: program library test wrong-bodies instructions look install install-library uninstall dist wheel
