# Builds, runs, tests and installs rds. Everything goes through the Rattle toolchain's command `rt`, which proves a
# crate before it builds it.
RT     ?= rt
PREFIX ?= /usr/local
PYTHON ?= /usr/bin/python3
# the installed program, and the folder of the completion for zsh
PROGRAM ?= build/rds
ZSH_COMPLETIONS ?= $(PREFIX)/share/zsh/site-functions
# tests/*.py ask for it by this name
export RT

SOURCES := crates.txt $(shell find crates -name out -prune -o \( -name '*.rt' -o -name '*.antt' \) -print)

.PHONY: all run quick lib test edits proofs built tried archives wrong-bodies install install-program install-monitor install-python \
  install-lib uninstall deb dist wheel monitor-demo clean toolchain program
all: build/rds lib

toolchain:
	@command -v $(RT) >/dev/null || { echo "rds: $(FOR)the Rattle toolchain is missing: there is no '$(RT)' on the PATH (README.md, 'Install');" \
	  "PROGRAM=FILE and LIBRARY=FOLDER name what was built elsewhere" >&2; exit 1; }

# What was built is installed and packed as it is, though sources may be newer: the toolchain is asked for only if nothing was built.
# Without the toolchain it stays, too.
older = echo "$(1) is older than the sources, and is used as it is" >&2
stays = [ -e $@ ] && ! command -v $(RT) >/dev/null && $(call older,$@)
unbuilt = $(if $(wildcard $(1)),,$(1))
tell_if_older = @[ -z "$$(find $(SOURCES) -newer '$(1)' -print -quit)" ] || $(call older,$(1))

build/rds: $(SOURCES)
	@$(stays) || $(MAKE) --no-print-directory program FOR='there is no $@ yet, and '

# `rt run` proves and builds what is missing, keeps the program, and runs it: here for its help alone.
program: toolchain
	cd crates/rds && $(RT) run -- --help >/dev/null
	@mkdir -p build
	cp crates/rds/out/rds build/rds
	@$(RT) version > build/toolchain

# The library for C: librds.a, librds.so.0 and rds.h, of what the toolchain proves and builds of crates/rds_c. `make lib` makes
# them in build/lib, for any x86-64; `make lib ARCH=arm64` in build/lib-arm64, by Debian's gcc-aarch64-linux-gnu.
ARCH ?= amd64
FOLDER_amd64 := build/lib
FOLDER_arm64 := build/lib-arm64
TOOLS_arm64  := aarch64-linux-gnu-
lib: $(FOLDER_$(ARCH))/librds.so.0

$(FOLDER_amd64)/librds.so.0 $(FOLDER_arm64)/librds.so.0: $(SOURCES) $(wildcard lib/*)
	@$(stays) || $(MAKE) --no-print-directory archive-$(if $(filter $(FOLDER_arm64)/%,$@),arm64,amd64) FOR='there is no $@ yet, and '

# over the crates that are proved already, as in the gate
archive-%: toolchain
	lib/archive.py $* build/librds-$*.a
	@$(RT) version > build/toolchain
	lib/make_library.sh build/librds-$*.a $(FOLDER_$*) $(TOOLS_$*)

# The sample alone may go by an unproved build, which is slow, but there in a minute.
run: toolchain
	@mkdir -p build
	@if $(MAKE) -sq build/rds; then build/rds list < examples/station.bin > build/sample.csv; else \
	  echo "built without proof for this sample, in a minute or so; 'make' proves rds and builds build/rds" >&2; \
	  (cd crates/rds && $(RT) try -- list) < examples/station.bin > build/sample.csv 2> build/try.log || \
	    { cat build/try.log >&2; exit 1; }; fi
	@sed -n -e '1,10p' -e '11s/.*/[..]/p' -e '/^total/p' build/sample.csv

quick: toolchain
	tests/quick.sh

# The wrong bodies get the processors that `rt ci` leaves free: most crates use one another, so it often proves a single crate. The
# tests try the built programs once all is proved. build/passed names the commit, if the tree was that commit from begin to end.
test: toolchain
	@mkdir -p build
	@rm -f $(LOG)
	@$(commit) > build/tested
	+$(MAKE) --no-print-directory -j 2 WHEN='--beside $(LOG)' wrong-bodies built
	+$(MAKE) --no-print-directory tried TESTS='$(ALL_TESTS)'
	@if $(commit) | cmp -s - build/tested && [ "$$(wc -l < build/tested)" = 1 ]; then cp build/tested build/passed; fi

# a line, and more if files were changed
commit = { git rev-parse HEAD; git status --porcelain; }
ALL_TESTS := tests monitor/tests

# All tests by pytest, over what is built. It prints which tests are skipped and why, and fails if there are fewer cases than in
# tests/counts.tsv. Times are measured last, when nothing else runs.
tried:
	PYTEST_ADDOPTS= timeout 3600 $(PYTHON) -m pytest -n auto $(TESTS)
TESTS ?= $(ALL_TESTS)

# the output of `rt ci`, for which the wrong bodies wait
LOG := build/proofs.log

# The edits that `rt ci` tries: it tries none where they are not made.
edits:
	tests/must_fail.py

# `rt ci` would give a single proof all processors, and then it takes a fifth more CPU time. The wrong bodies use the others better, so
# each proof gets one.
proofs: edits
	@mkdir -p build
	@echo $(RT) ci
	@export RT_JOBS=$${RT_JOBS:-$$(nproc)}; \
	  { $(RT) ci; echo $$? > build/proofs.status; echo "proofs: ended"; } 2>&1 | tee $(LOG)
	@exit $$(cat build/proofs.status)
	tests/must_fail.py --tried $(LOG)

# The library for C over the crates that `proofs` has just built: `lib` would prove all of them once more. The one for arm64 is made if
# there is a compiler for it, over the proof of rds_c that the first one keeps.
archives:
	@for arch in amd64 $(if $(shell command -v $(TOOLS_arm64)gcc),arm64); do $(MAKE) --no-print-directory archive-$$arch || exit 1; done

wrong-bodies:
	nice tests/wrong_bodies.py $(WHEN)

built: proofs
	+$(MAKE) --no-print-directory archives

# The program, with its manual page, completion for bash and zsh and the examples; and rds-monitor with the Python module librds.
# DESTDIR may have blanks; the other folders become parts of files, and may not.
ifneq ($(words x$(PREFIX) x$(LIBDIR) x$(PYTHON_DIR) x$(ZSH_COMPLETIONS)),4)
$(error PREFIX, LIBDIR, PYTHON_DIR and ZSH_COMPLETIONS are folders without blanks in their names)
endif
SHARE = $(DESTDIR)$(PREFIX)/share
install: install-program install-monitor

install-program: $(call unbuilt,$(PROGRAM))
	$(call tell_if_older,$(PROGRAM))
	install -d "$(DESTDIR)$(PREFIX)/bin" "$(SHARE)/man/man1" "$(SHARE)/rds/examples" "$(SHARE)/bash-completion/completions"
	install -d "$(DESTDIR)$(ZSH_COMPLETIONS)"
	install -m 755 $(PROGRAM) "$(DESTDIR)$(PREFIX)/bin/rds"
	install -m 644 rds.1 "$(SHARE)/man/man1/rds.1"
	install -m 755 examples/*.sh "$(SHARE)/rds/examples"
	install -m 644 $(filter-out %.sh,$(wildcard examples/*.*)) "$(SHARE)/rds/examples"
	install -m 644 completions/rds.bash "$(SHARE)/bash-completion/completions/rds"
	install -m 644 completions/_rds "$(DESTDIR)$(ZSH_COMPLETIONS)/_rds"

# `rds-monitor` finds its package, and librds if no system package has it, in share/rds-monitor. Its manual page and completions are made
# here, by argparse-manpage and shtab, in a folder of this installation alone. Without these the rest is installed, unless PAGES_NEEDED is
# set, as for a package.
MONITOR_DIR := $(PREFIX)/share/rds-monitor
ROOMS       := rows content measures signal db page capture watch
PYTHON_TOO  ?= install-python
install-monitor: $(PYTHON_TOO)
	install -d "$(DESTDIR)$(PREFIX)/bin" "$(DESTDIR)$(MONITOR_DIR)/rds_monitor" "$(SHARE)/man/man1" "$(SHARE)/bash-completion/completions"
	install -d "$(DESTDIR)$(ZSH_COMPLETIONS)"
	install -m 644 monitor/rds_monitor/*.py "$(DESTDIR)$(MONITOR_DIR)/rds_monitor"
	for room in $(ROOMS); do install -d "$(DESTDIR)$(MONITOR_DIR)/rds_monitor/$$room" || exit 1; \
	  install -m 644 monitor/rds_monitor/$$room/*.* "$(DESTDIR)$(MONITOR_DIR)/rds_monitor/$$room" || exit 1; done
	install -m 755 monitor/rds-monitor "$(DESTDIR)$(PREFIX)/bin/rds-monitor"
	pages=$$(mktemp -d) && $(PYTHON) packaging/make_pages.py $$pages && \
	  install -m 644 $$pages/rds-monitor.1 "$(SHARE)/man/man1/rds-monitor.1" && \
	  install -m 644 $$pages/rds-monitor.bash "$(SHARE)/bash-completion/completions/rds-monitor" && \
	  install -m 644 $$pages/_rds-monitor "$(DESTDIR)$(ZSH_COMPLETIONS)/_rds-monitor" || \
	  { [ -z "$(PAGES_NEEDED)" ] && echo 'rds-monitor is installed without its manual page and completions' >&2; }; \
	  status=$$?; rm -rf $$pages; exit $$status

# The Python module, which loads librds.so.0.
PYTHON_DIR ?= $(MONITOR_DIR)
install-python:
	install -d "$(DESTDIR)$(PYTHON_DIR)/librds"
	install -m 644 bindings/python/librds/*.py bindings/python/librds/py.typed "$(DESTDIR)$(PYTHON_DIR)/librds"

# The library for C, its header, its manual pages, and the files for pkg-config and CMake.
LIBDIR ?= $(PREFIX)/lib
# the folder of the library that is installed
LIBRARY ?= build/lib
install-lib: $(call unbuilt,$(LIBRARY)/librds.so.0)
	$(call tell_if_older,$(LIBRARY)/librds.so.0)
	install -d "$(DESTDIR)$(LIBDIR)/pkgconfig" "$(DESTDIR)$(LIBDIR)/cmake/rds" "$(DESTDIR)$(PREFIX)/include" "$(SHARE)/man/man3"
	install -m 644 $(LIBRARY)/librds.a "$(DESTDIR)$(LIBDIR)/librds.a"
	install -m 755 $(LIBRARY)/librds.so.0 "$(DESTDIR)$(LIBDIR)/librds.so.0"
	ln -sf librds.so.0 "$(DESTDIR)$(LIBDIR)/librds.so"
	install -m 644 lib/rds.h "$(DESTDIR)$(PREFIX)/include/rds.h"
	sed 's|@prefix@|$(PREFIX)|; s|@libdir@|$(LIBDIR)|' lib/rds.pc.in > "$(DESTDIR)$(LIBDIR)/pkgconfig/rds.pc"
	install -m 644 lib/rds-config-version.cmake "$(DESTDIR)$(LIBDIR)/cmake/rds/rds-config-version.cmake"
	sed "s|@include@|$$(realpath -m --relative-to=$(LIBDIR) $(PREFIX)/include)|" lib/rds-config.cmake.in \
	  > "$(DESTDIR)$(LIBDIR)/cmake/rds/rds-config.cmake"
	$(PYTHON) lib/make_pages.py "$(SHARE)/man/man3" || \
	  { [ -z "$(PAGES_NEEDED)" ] && echo 'librds is installed without its manual pages' >&2; }

# Removes the files that `install` and `install-lib` write with the same DESTDIR and folders, and then the folders that are only for rds.
STAGE := build/uninstall
# what `install-monitor` may have left out
MAYBE = $(PREFIX)/share/man/man1/rds-monitor.1 $(PREFIX)/share/bash-completion/completions/rds-monitor $(ZSH_COMPLETIONS)/_rds-monitor
uninstall:
	@rm -rf $(STAGE) && mkdir -p $(STAGE)/made && touch $(addprefix $(STAGE)/made/,rds librds.a librds.so.0)
	@$(MAKE) -s install install-lib DESTDIR=$(STAGE)/root PROGRAM=$(STAGE)/made/rds LIBRARY=$(STAGE)/made 2>/dev/null
	@touch $(addprefix $(STAGE)/root,$(MAYBE))
	@root=$$(realpath "$(DESTDIR)/") && cd $(STAGE)/root && find . ! -type d -print0 | (cd "$$root" && xargs -0 rm -f) && \
	  find . -depth -type d -path '*rds*' -print0 | (cd "$$root" && xargs -0 rmdir --ignore-fail-on-non-empty 2>/dev/null || true)
	@rm -rf $(STAGE)

# All of that as Debian packages below build, and those for arm64 if `make lib ARCH=arm64` was run.
deb: $(call unbuilt,$(PROGRAM)) $(call unbuilt,$(LIBRARY)/librds.so.0)
	@mkdir -p build
	@packaging/make_deb.sh $(PROGRAM) $(LIBRARY) build $(patsubst %/librds.so.0,%,$(wildcard $(FOLDER_arm64)/librds.so.0))

# A release below build/dist, which needs no toolchain: the packages, and a tarball with the same and the wheel of rds-monitor.
dist: $(call unbuilt,$(PROGRAM)) $(call unbuilt,$(LIBRARY)/librds.so.0)
	$(call tell_if_older,$(PROGRAM))
	@mkdir -p build/dist
	@packaging/make_dist.py $(PROGRAM) $(LIBRARY) build/dist "$(TOOLCHAIN)"
	@packaging/make_deb.sh $(PROGRAM) $(LIBRARY) build/dist
# the line of `rt version` by which it was built
TOOLCHAIN ?= $(shell cat build/toolchain 2>/dev/null || $(RT) version 2>/dev/null)

# A wheel of the Python module with the library in it, below build.
wheel: $(call unbuilt,$(FOLDER_$(ARCH))/librds.so.0)
	bindings/python/make_wheel.py $(FOLDER_$(ARCH))/librds.so.0 build

# Three simulated stations on a page, by the decoder that rds-monitor finds, or else by a program that is built without proof, in a minute
# or so.
monitor-demo:
	$(PYTHON) monitor/demo/run.py $(DEMO)

clean:
	rm -rf build tests/__pycache__
	find crates -name out -prune -exec rm -rf {} +
