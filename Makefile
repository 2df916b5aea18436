# Builds, tries and installs the commands of tools/commands.txt. `rt` is the command of the Rattle toolchain.

PREFIX ?= /usr/local
GCC_SOURCE ?= /usr/src/gcc-12/gcc-12*.tar.xz
programs := $(shell sed -n 's/^\(hz[a-z_]*\) program .*/\1/p' tools/commands.txt)
# how many crates are proved or programs compiled beside each other: as many as there are processors, each with 4 GB of memory
processors := $(shell nproc)
beside := $(shell awk -v most=$(processors) '/^MemAvailable/ { room = int($$2 / 4000000) } END { print room < 1 ? 1 : room < most ? room : most }' /proc/meminfo)
ifeq ($(filter -j%,$(MAKEFLAGS)),)
MAKEFLAGS += -j$(beside)
endif
# needs COMMAND: ends the target if the command is not there
needs = @command -v $(1) > /dev/null || { echo "hz: $(1) is not on the path; make $@ needs it"; exit 2; }

.PHONY: all try quick quick-kit test examples check-walk check-why check-same check-bound check-modulo check-memory check-large check-limits check-gcc check-sheet bench install uninstall dist deb clean

# Each program in bin is proved, with all crates that it needs. A kit whose `rt ci` takes names of crates keeps what it passed: there `rt ci`
# proves, so that `make test` proves nothing of it again.
all:
	$(call needs,python3)
	@python3 tools/build_crates.py $(beside) $$(rt help 2>&1 | grep -q 'rt ci \[\{0,1\}NAME' && echo --gate)

# each program in bin/quick, in minutes: nothing is proved, and they are kept apart from what is
quick: $(programs:%=bin/quick/%)
	@echo "hz: compiled for a first look in bin/quick, with NOTHING PROVED: $(programs); make proves and builds them in bin"

quick-kit:
	@sh tools/quick.sh

bin/quick/%: tools/quick.sh crates.txt $(shell find crates -path '*/out' -prune -o -path '*/src/*.rt' -print) | quick-kit
	@mkdir -p bin/quick
	@sh tools/quick.sh $* $@

# an example at once: nothing is proved, and nothing stays built
try:
	@sh tools/check_kit.sh
	@echo "hz: an example, not proved; a minute or two"
	@cd crates/hz && rt try --data machine.md=../../examples/divider/machine.md --data busy.trace=../../examples/divider/busy.trace \
		-- replay machine.md busy.trace 2>&1 | grep -v '^run=\|^checked' || true

# the whole gate, with as many checks in parallel as `make` has
test:
	@sh tools/check_kit.sh
	@[ ! -e bin/copies ] || { echo "hz: make was ended, and left bin/copies; run it again, or remove that folder"; exit 2; }
	@RT_JOBS=$${RT_JOBS:-$(beside)} .ci/run

# each example and each status of the programs, the manual pages, what tools/extract.py writes and what pages show, against what is expected
examples: all
	@sh examples/check.sh bin/hz bin/hz_why bin/hz_same
	@sh examples/statuses.sh bin/hz bin/hz_why bin/hz_same
	@sh man/check.sh
	@if command -v python3 > /dev/null; then sh tools/test.sh bin/hz && python3 tools/check_pages.py bin/hz bin/hz_why bin/hz_same; \
		else echo "no python3: tools/test.sh and tools/check_pages.py are not run"; fi

# compile and then walk, beside replay and a calendar: on all examples, and on descriptions and traces with asks that a seed makes
check-walk: all
	@python3 tools/check_walk.py bin/hz

# hz_why beside replay and a calendar: on all examples, and on descriptions and traces that a seed makes
check-why: all
	@python3 tools/check_why.py bin/hz bin/hz_why

# bound beside an exhaustive search, on small blocks that a seed makes
check-bound: all
	@python3 tools/check_bound.py bin/hz

# modulo beside a plain search, and turns of its kernels, on loops that a seed makes
check-modulo: all
	@python3 tools/check_modulo.py bin/hz

# memory refused to each command, to hz_why and to hz_same, one request at a time: each run reports it, or answers as before
check-memory: all
	$(call needs,cc)
	@python3 tools/check_memory.py bin/hz bin/hz_why bin/hz_same

# each command, hz_why and hz_same at the ends of sizes, and just past them: files of up to 1 GB in the folder for what is temporary, and ample memory
check-large: all
	@python3 tools/check_large.py bin/hz bin/hz_why bin/hz_same

# hz at each limit and one past it, and both programs on the largest inputs of the calls that can want memory
check-limits: all
	@python3 tools/check_limits.py --each bin/hz bin/hz_why

# hz_same beside a plain search, on machines that a seed makes, and on GCC's pipelines with and without --align and --merge
check-same: all
	@python3 tools/check_same.py --source '$(GCC_SOURCE)' bin/hz bin/hz_same

# each pipeline of GCC's back ends, 10,000 mutants of their files, and what genautomata writes of them; GCC_SOURCE is what Debian's package gcc-12-source installs, or a folder
check-gcc: all
	@python3 tools/check_gcc.py --source '$(GCC_SOURCE)' bin/hz

# data sheets of the examples, of GCC's pipelines, and of made descriptions, as files and in headless chromium
check-sheet: all
	@python3 tools/check_sheet.py --source '$(GCC_SOURCE)' bin/hz bin/hz_why

bench: all
	@sh bench/replay/run.sh bin/hz
	@sh bench/forms/run.sh bin/hz
	@sh bench/description/run.sh bin/hz
	@sh bench/alternatives/run.sh bin/hz
	@sh bench/check/run.sh bin/hz
	@sh bench/compile/run.sh bin/hz
	@sh bench/compile/pipelines.sh bin/hz
	@sh bench/compile/widths.sh bin/hz
	@sh bench/walk/run.sh bin/hz
	@sh bench/asks/run.sh bin/hz
	@sh bench/why/run.sh bin/hz bin/hz_why
	@sh bench/same/run.sh bin/hz bin/hz_same
	@sh bench/schedule/run.sh bin/hz
	@sh bench/bound/run.sh bin/hz
	@sh bench/duo/run.sh bin/hz
	@sh bench/timed/run.sh bin/hz
	@sh bench/modulo/run.sh bin/hz
	@sh bench/blocks/run.sh bin/hz
	@sh bench/states/run.sh
	@sh bench/determ/run.sh
	@sh bench/depend/run.sh
	@sh bench/minim/run.sh
	@sh bench/tables/run.sh
	@sh bench/tables/pack.sh

install: all
	@sh tools/install.sh put '$(DESTDIR)$(PREFIX)'

uninstall:
	@sh tools/install.sh remove '$(DESTDIR)$(PREFIX)'

# a release beside the programs, a tar file or a Debian package, of the version in VERSION; each is tried in a folder of its own
version = $(firstword $(shell cat VERSION))

dist: all
	@sh tools/release.sh dist bin
	@sh tools/try_dist.sh bin/hz-$(version)-linux-$(shell uname -m).tar.gz

deb: all
	$(call needs,dpkg-deb)
	@sh tools/release.sh deb bin
	@sh tools/try_deb.sh bin/hz_$(version)_$(shell dpkg --print-architecture).deb bin

clean:
	@rm -rf bin bench/data
