# make         proves and builds the programs, as many crates at a time as there are processors, and leaves them in build, as
#              build/coz, build/coz-page and so on: tools/repository.py lists them
# make test    runs the merge gate, builds the programs that are missing or older than their sources, and then checks the
#              documents, the scripts and the examples (tools/check), and ends with a count of what passed, failed or was skipped
# make try ARGS="run examples/one"    runs the program with no proof, in some minutes
# make quick   builds the same programs without proving them, in two or three minutes; CHECKS=1 leaves their run-time
#              checks in, which a changed tree needs
# make guests  builds, with Debian's packages, what guests/coz-cc links programs with
# make guests-cxx  builds what guests/coz-c++ and -fopenmp link programs with: GCC's library of C++, its unwinder and OpenMP, in
#              at most 10 minutes on four processors
# make examples    builds the examples in C as they stand, with a C library of their own
# make page    proves and builds build/coz-page alone; so do make join, make hot and make functions with theirs
# make install PREFIX=DIR    puts the programs, the scripts, and their man pages below DIR; make uninstall takes them away

ARGS ?= run examples/one
PREFIX ?= /usr/local

EXAMPLES = longer ledger
PAGES = TUTORIAL.md GUESTS.md FORMATS.md GLOSSARY.md CLUSTER.md CI.md
PROGRAMS := $(shell python3 -B tools/repository.py)
NAMES = $(patsubst coz-%,%,$(filter coz-%,$(PROGRAMS)))
SHELLS = bash-completion/completions/coz-study zsh/site-functions/_coz-study

.PHONY: build $(NAMES) test try quick guests guests-cxx examples install uninstall clean

build:
	tools/prove

$(NAMES):
	tools/prove coz-$@

test:
	bash .ci/run
	tools/quick-build --stale
	tools/check

try:
	cd crates/coz && rt try $(foreach file,$(wildcard $(ARGS)),--data $(file)=$(abspath $(file))) -- $(ARGS)

quick:
	tools/quick-build $(if $(CHECKS),--checks)

guests:
	guests/build

guests-cxx: guests
	guests/build-cxx

examples:
	guests/build plain
	for name in $(EXAMPLES); do COZ_LIBRARY=plain guests/coz-cc -O1 -o examples/$$name examples/$$name.c || exit 1; done

install: build
	for name in $(PROGRAMS); do install -D -m 755 build/$$name $(DESTDIR)$(PREFIX)/bin/$$name || exit 1; done
	install -D -m 755 tools/coz-study $(DESTDIR)$(PREFIX)/bin/coz-study
	install -d $(DESTDIR)$(PREFIX)/lib/coz/study
	install -m 644 tools/study/*.py $(DESTDIR)$(PREFIX)/lib/coz/study
	tools/install-guests "$(DESTDIR)" "$(PREFIX)"
	install -D -m 755 tools/to-coz $(DESTDIR)$(PREFIX)/bin/to-coz
	install -D -m 755 cluster/coz-shard $(DESTDIR)$(PREFIX)/bin/coz-shard
	install -d $(DESTDIR)$(PREFIX)/lib/coz/cluster
	install -m 755 cluster/array.sh $(DESTDIR)$(PREFIX)/lib/coz/cluster
	install -m 644 cluster/*.mk $(DESTDIR)$(PREFIX)/lib/coz/cluster
	for name in $(PAGES); do install -D -m 644 docs/$$name $(DESTDIR)$(PREFIX)/share/doc/coz/$$name || exit 1; done
	for name in $(SHELLS); do mkdir -p "$(DESTDIR)$(PREFIX)/share/$${name%/*}" && tools/coz-study completions $${name%%[-/]*} > "$(DESTDIR)$(PREFIX)/share/$$name" || exit 1; done
	for name in $(PROGRAMS) coz-study; do install -D -m 644 docs/$$name.1 $(DESTDIR)$(PREFIX)/share/man/man1/$$name.1 || exit 1; done

uninstall:
	for name in $(PROGRAMS) coz-study; do rm -f $(DESTDIR)$(PREFIX)/bin/$$name $(DESTDIR)$(PREFIX)/share/man/man1/$$name.1; done
	rm -f $(patsubst guests/%,$(DESTDIR)$(PREFIX)/bin/%,$(wildcard guests/coz-*))
	rm -f $(DESTDIR)$(PREFIX)/bin/to-coz $(DESTDIR)$(PREFIX)/bin/coz-shard
	rm -f $(addprefix $(DESTDIR)$(PREFIX)/share/,$(SHELLS))
	rm -rf $(DESTDIR)$(PREFIX)/lib/coz $(DESTDIR)$(PREFIX)/share/doc/coz

clean:
	rm -rf build crates/*/out
