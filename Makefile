# make run     builds the proved program and makes the first run; make run KEEP=no keeps 8 GB below crates/*/out in place of 18
# make try     runs the sessions of the program unproved, on the first run and one example: about a minute
# make test    the gate: every proof from nothing, mutants, tests, the program's runs, the examples
# make library  makes the library for other languages of what `make run` proved: out/library
# make page    makes page/index.html, which checks, draws and runs policies in a browser (Debian's binaryen)
# make plants  tries further mutants; of one crate by CRATE=NAME
# make mutants  lists all mutants, each with what it breaks; of one crate by CRATE=NAME
# make bench   times the proved program, and tells its memory and its machine instructions; tools/bench --help says more
# make failover  tries failovers by ucarp and keepalived in network namespaces (root), times them beside keepalived alone, and,
#               where `make deb` made the package, installs, upgrades and removes it on a machine of namespaces, and follows
#               docs/OPERATING.md with it on two
# make check   proves what changed since the last check, crate by crate
# make clean   drops what the checks kept
# make install  puts the program of `make run`, its scripts, units, manual pages, completions, documents and examples below DESTDIR
#               and PREFIX (/usr/local), and what `make library` made, if it did; make uninstall takes them away
# make deb     makes a Debian package of the same: make deb MAINTAINER='NAME <ADDRESS>'
# make man     makes the manual pages from the documents
# make lint    checks scripts, Python, units, pages, their English and numbers, and mutants (tools/packages lint names what it needs)

.PHONY: run try test library page plants mutants bench failover check clean install uninstall deb man lint

PREFIX ?= /usr/local

run:
	@tools/run $(if $(filter no,$(KEEP)),--slim)

try:
	@tools/try

test:
	@tools/gate

library:
	@tools/library

page:
	@tools/page

plants:
	@tools/plants $(CRATE)

mutants:
	@tools/mutants $(CRATE)

bench: run
	@tools/bench

failover:
	@tests/failover/failover
	@tests/failover/beside
	@if ls out/ifsvm_*.deb > /dev/null 2>&1; then tests/failover/package && tests/failover/first_hour; fi

check:
	rt all check

clean:
	rm -rf out crates/*/out

install:
	@PREFIX="$(PREFIX)" DESTDIR="$(DESTDIR)" tools/install install

uninstall:
	@PREFIX="$(PREFIX)" DESTDIR="$(DESTDIR)" tools/install uninstall

deb:
	@tools/deb "$(MAINTAINER)"

man:
	@tools/manual_pages

lint:
	@tools/lint
