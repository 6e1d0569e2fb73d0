# The commands of this repository. README has a table of them, which `make help` prints. They need git, awk, Python 3.8 or later, and the Rattle
# toolchain (`rt`). The tests skip what needs a compiler that the machine lacks, and say so.
help:
	@command -v awk > /dev/null || { echo 'make help: the command awk was not found. The table is in README.md' >&2; exit 2; }
	@awk -F '|' '/^\|`make / { gsub(/`/, ""); printf "%-38s %-40s %s\n", $$2, $$4, $$3 }' README.md

# FILE is passed to the shell as an environment variable, so that its name may have any characters.
export SHOWN := $(value FILE)
export MODE
unexport FILE

# ANEW=1 takes over nothing that an earlier run reached.
ANEWLY = $(if $(ANEW),--anew)
has_rt = @sh commands/has.sh 'make $@' git awk python3 rt

# Shows a file: make show FILE=/bin/true [MODE=permissive]. `try` runs the program without a proof, unless the proved one is built; `show` first
# proves the crates of the program that are not proved yet, and builds it. Both end with 0 if the file is shown or refused, and with 2 if it
# can't be read, or the output can't be written, or a proof fails.
try show:
	@sh commands/show.sh $@

# Tests all, but doesn't prove the tests themselves: checks/gate.py lists the parts. commands/surroundings.sh runs them in other surroundings,
# with OVER, a folder that was tested before: its proofs are taken over, and edits are left out.
test:
	$(has_rt)
	@python3 checks/gate.py test $(ANEWLY) $(if $(filter command%,$(origin OVER)),--over '$(OVER)')

# Tests all, and proves the tests too: they and must-fail/ are left to the toolchain's own gate, `rt ci`. What an earlier run on this machine
# reached over the same sources is taken over (checks/kept.py): a release is made from a run with ANEW=1. JOBS and UNBUILT are for
# checks/prove.sh: one process takes least.
gate:
	$(has_rt)
	@JOBS=1 UNBUILT=1 python3 checks/gate.py gate $(ANEWLY)

# Calls the library from C, Rust, JavaScript and Python.
faces:
	$(has_rt)
	@sh checks/faces.sh

# Compares what the library's programs and the Python package list of a FILE, or of files of this machine, with what its nm, readelf, size,
# addr2line and pyelftools list, and prints each difference: make compare [FILE=/usr/lib/libx.so]
compare:
	$(has_rt)
	@sh bench/compare.sh

# Tries the edits alone: make edits [CRATES=goblin_base] [EDIT=one_early] [FROM=/tmp/bugs]. EDIT is an edit by its file's name, and FROM another
# folder of edits, which has a folder for each crate.
edits:
	$(has_rt)
	@python3 checks/gate.py edits $(ANEWLY) $(CRATES) $(if $(FROM),--from '$(FROM)') $(if $(EDIT),--edit '$(EDIT)')

# Checks crates with half of the search's limits, and lists the functions that stay open and the ten slowest: make margin [CRATES=goblin_base]
margin:
	$(has_rt)
	@python3 checks/margin.py $(CRATES)

# Times the program, once it is built, beside readelf, and calls of the library: make bench [FILE=/bin/true]
bench:
	$(has_rt)
	@python3 bench/program.py $(if $(value FILE),"$$SHOWN")

# Times the library for C beside libelf, if libelf's header is installed: make bench-faces [FILE=/usr/lib/libx.so] [CPU=x86-64-v2]
bench-faces:
	$(has_rt)
	@sh bench/c.sh

# Times the Python package beside pyelftools and readelf, if these and numpy are installed: make bench-python [FILE=/usr/lib/libx.so]
bench-python:
	$(has_rt)
	@sh bench/python.sh

# `make install` installs the library with its header, pkg-config and CMake files, examples, Rust crate and Python package, and the program
# if it is proved and built. `make dist` puts the same into an archive. What an earlier version installed below PREFIX is removed first;
# `make uninstall` removes it, and the folders that were made for it. If this can't be done whole, nothing is changed. Variables:
#   PREFIX=/usr/local   the folder of the installation
#   LIBDIR=lib          the folder of the library, below PREFIX
#   DESTDIR=/tmp/root   a folder that stands for the root, as for a package
#   TARGET=aarch64-unknown-linux-gnu   or wasm64-unknown-unknown, which makes the module, its JavaScript and the page
#   CPU=x86-64-v2       the processors that the library may be used on, by default all of the target's
#   SHARED=1            also a shared library for C, which goblin_c-shared.pc finds
# (not from the environment, where openSUSE has it for all users)
CPU :=
export CPU TARGET SHARED
PREFIX ?= /usr/local
LIBDIR ?= lib
# (the first and the last may have any characters, too)
install uninstall dist: export AT := $(value PREFIX)
install uninstall dist: export BELOW := $(value LIBDIR)
install uninstall dist: export ROOT := $(value DESTDIR)
unexport PREFIX LIBDIR DESTDIR
install:
	@LIBDIR="$${BELOW#"$${AT%/}"/}" sh faces/install.sh "$$ROOT$$AT"

uninstall:
	@sh faces/install.sh --uninstall "$$ROOT$$AT"

dist:
	@LIBDIR="$${BELOW#"$${AT%/}"/}" sh faces/install.sh --archive

.PHONY: help try show test gate faces compare edits margin bench bench-faces bench-python install uninstall dist
