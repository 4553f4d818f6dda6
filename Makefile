# ncdump, ncgen and nccheck for the netCDF classic formats. Everything is proved before it is built.

sample = samples/stations
keep = mkdir -p bin && cp crates/$(1)_cli/out/$(1)_cli bin/$(1) && $(call stamp,$(1))
# gives a program a section with the version, which `strings` finds
stamp = printf 'juniperbrick %s\n' "$$(cat VERSION)" >bin/version && \
	if command -v objcopy >/dev/null; then objcopy --remove-section .version --add-section .version=bin/version bin/$(1); fi
# where `make install` puts the programs, their manual pages, completions, documents and samples
PREFIX = /usr/local
bindir = $(PREFIX)/bin
mandir = $(PREFIX)/share/man
docdir = $(PREFIX)/share/doc/$(NAMES)juniperbrick
# which programs it installs
PROGRAMS = ncdump ncgen nccheck
# what comes before the names of the installed programs and pages, and of the folder of documents, such as juniper- beside Unidata's
NAMES =
# The shell gets the paths by its environment, so they may have spaces.
install installcheck uninstall: export names = $(NAMES)
install installcheck uninstall: export chosen = $(PROGRAMS)
install installcheck uninstall: export programs = $(DESTDIR)$(bindir)
install uninstall: export pages = $(DESTDIR)$(mandir)
install uninstall: export bash = $(DESTDIR)$(PREFIX)/share/bash-completion/completions
install uninstall: export zsh = $(DESTDIR)$(PREFIX)/share/zsh/site-functions
install uninstall: export fish = $(DESTDIR)$(PREFIX)/share/fish/vendor_completions.d
install uninstall: export documents = $(DESTDIR)$(docdir)
release = juniperbrick-$(shell cat VERSION)-linux-x86_64
# the day of the newest version
day = $(shell sed -n 's/^## .*(\(.*\))$$/\1/p' CHANGELOG.md | head -n 1)

# Proves and builds the programs, makes a file of the sample's text, checks it, and prints it as CDL again. The first time, a program that
# isn't proved yet prints the sample before.
all: bin/ncdump bin/ncgen bin/nccheck
	@test -e build.sh || echo 'This folder is a release, which needs no build: make install installs the programs of bin/.' >&2
	bin/ncgen -k nc6 -o bin/stations.nc $(sample).cdl
	bin/nccheck bin/stations.nc
	bin/ncdump bin/stations.nc

# Proves and builds the programs, if anything of the crates that they stand on has changed.
program_crates := $(addprefix crates/,$(shell ./build.sh --crates 2>/dev/null))
bin/ncdump bin/ncgen bin/nccheck &: $(wildcard build.sh kit.sh HANDLES crates.txt) $(if $(program_crates),$(shell find $(program_crates) \
		\( -name out -o -name wrong-bodies \) -prune -o -type f -print))
	@$(sources)
	@test -x bin/ncdump || { $(try); }
	./build.sh
	@$(call stamp,ncdump)
	@$(call stamp,ncgen)
	@$(call stamp,nccheck)

# Prints the sample by a program that isn't proved.
try = ./kit.sh && echo 'A first dump, in a minute or two, by a program that is not proved yet:' && \
	cd crates/ncdump_cli && rt try -- $(abspath $(sample).nc)
try:
	@$(sources)
	@$(try)

# Says in a sentence what a release doesn't have.
sources = test -e build.sh || \
	{ echo 'This needs the sources and the Rattle kit: this folder is a release, which has the built programs in bin/.' >&2; exit 1; }

# All proofs and tests, the built programs and the pages. A merge has to pass this and the next, side by side, each in parts that run side
# by side where none waits for another.
test: $(if $(wildcard tests),test-proofs test-programs test-scale,kit)
# Whether contracts and laws say enough: wrong bodies and wrong definitions, which have to be refused.
test-contracts: $(if $(wildcard tests),test-definitions test-named test-bodies,kit)
test-bodies test-programs test-scale: test-proofs
test-proofs test-definitions test-named: kit
ifneq ($(filter test test-contracts,$(MAKECMDGOALS)),)
MAKEFLAGS += --jobs=3
endif

# Says in a sentence what is wrong with the command rt, if anything is.
kit:
	@$(sources)
	./kit.sh

# The names of libraries, in seconds; then all proofs (the newer kit leaves out those that an earlier run on this machine made from the same
# files), the tests and the programs' stored runs.
test-proofs:
	tests/crates.py
	./kit.sh rt ci
	$(call keep,ncdump)
	$(call keep,ncgen)
	$(call keep,nccheck)

# Wrong definitions, which the laws have to refuse: they stand on nothing that is built here, and give way to the proofs.
test-definitions:
	nice -n 19 tests/definitions.py

# The tests that wrong bodies name, each of which has to fail under its own. They need no proof.
test-named:
	tests/wrong_bodies.py --tests

# All wrong bodies: the prover has to refuse those that name no test, and those that named_bodies.txt says.
test-bodies:
	tests/wrong_bodies.py

# Places where out of memory is made of anything but a failed allocation, or of one by a number that isn't known to be needed; the tests and
# the programs that the gate has built, with each allocation failing in turn; the programs from end to end, with their calls of the system
# counted; the recipes of the manual pages; the documents; and a release, unpacked and run.
test-programs:
	tests/refusals.py
	tests/either_kit.sh
	tests/allocation_failures.sh
	tests/ncdump.sh
	tests/ncgen.sh
	tests/nccheck.sh
	tests/recipes.sh
	tests/calls.sh
	tests/documents.py
	tests/release.sh

# The built programs on many files and texts: how much memory they ask for; files of many lengths; texts and files of many parts, whose time
# may not grow with a square, nor be that of a slower way; random datasets; and mangled files and texts.
test-scale:
	tests/memory.py
	tests/lengths.py 8
	tests/squares.py
	tests/ratios.py
	tests/roundtrip.py
	tests/hostile.py

# The scripts run make of their own, which knows nothing of this one.
unexport MAKEFLAGS

# Installs the programs that bin/ has, with what belongs to them. Proves and builds the programs first if bin/ lacks them.
install: names
	for name in $$chosen; do test -x bin/$$name || $(MAKE) bin/$$name || exit 1; done
	install -d "$$programs" "$$pages/man1" "$$pages/man5" "$$bash" "$$zsh" "$$fish" "$$documents/docs" "$$documents/samples"
	install -m 644 samples/*.cdl samples/*.nc "$$documents/samples"
	install -m 644 docs/*.svg "$$documents/docs"
	@$(put); for name in $$chosen; do \
		install -m 755 bin/$$name "$$programs/$$names$$name" && \
		put '$(renamed)' man/$$name.1 "$$pages/man1/$$names$$name.1" && \
		put 's/ ('$$name')$$/ $(NAMES)\1/' completions/$$name "$$bash/$$names$$name" && \
		put 's/ ('$$name')$$/ $(NAMES)\1/' completions/_$$name "$$zsh/_$$names$$name" && \
		put 's/^complete -c /&$(NAMES)/' completions/$$name.fish "$$fish/$$names$$name.fish" || exit 1; \
	done
	@$(put); put '$(renamed)' man/cdl.5 "$$pages/man5/$${names}cdl.5"
	@$(put); for document in README.md CHANGELOG.md docs/*.md; do \
		put '$(unlinked)' $$document "$$documents/$$document" || exit 1; \
	done

# Runs the installed programs on a sample, and compares what they write.
installcheck: names
	@folder=$$(mktemp -d) && trap 'rm -rf "$$folder"' EXIT && for name in $$chosen; do \
		program=$$programs/$$names$$name; \
		case $$name in \
			ncdump) "$$program" $(sample).nc >"$$folder/cdl" && cmp "$$folder/cdl" $(sample).cdl ;; \
			ncgen) "$$program" -k nc6 -o "$$folder/nc" $(sample).cdl && cmp "$$folder/nc" $(sample).nc ;; \
			nccheck) "$$program" $(sample).nc ;; \
		esac || exit 1; \
		echo "$$program writes what it should"; \
	done

# Removes what `make install` has put there, if DESTDIR, PREFIX, NAMES and the folders are the same.
uninstall: names
	for name in ncdump ncgen nccheck; do \
		rm -f "$$programs/$$names$$name" "$$pages/man1/$$names$$name.1" "$$bash/$$names$$name" "$$zsh/_$$names$$name" \
			"$$fish/$$names$$name.fish" || exit 1; \
	done
	rm -f "$$pages/man5/$${names}cdl.5"
	rm -rf "$$documents"

# Says in a sentence what NAMES and PROGRAMS may have, before anything is written or removed.
names:
	@case $$names in *[!A-Za-z0-9._+-]*) echo 'NAMES may have only letters, digits and the characters . _ + -' >&2; exit 1 ;; esac
	@for name in $$chosen; do case $$name in \
		ncdump|ncgen|nccheck) ;; \
		*) echo 'PROGRAMS may have only the names ncdump, ncgen and nccheck' >&2; exit 1 ;; \
	esac; done

# put EDIT FROM TO: a word for the shell, which installs an edited file
put = put() { sed -E "$$1" "$$2" >"$$3" && chmod 644 "$$3"; }
# gives a manual page the installed names: in its title, NAME, SYNOPSIS and examples, and where it leads to another page
renamed = s/^\.TH /&\U$(NAMES)\E/; s/^(cdl|nc[a-z]+) \\-/$(NAMES)&/; \
	s/(cdl|nc(dump|gen|check)) \(([15])\)/$(NAMES)\1 (\3)/g; \
	s/^(\.BR? "?)(nc(dump|gen|check))( |$$)/\1$(NAMES)\2\4/; \
	/^\.EX/,/^\.EE/s/(^|[ \t|"])(nc(dump|gen|check))([ )])/\1$(NAMES)\2\4/g
# makes plain names of the links of a document that lead to what is not installed beside it
unlinked = s,\[([^]]*)\]\((\.\./)?(man/|crates/|CONTRIBUTING)[^)]*\),\1,g

# Packs the programs, the manual pages, the documents with the definitions that they lead to, and the samples into dist/RELEASE.tar.gz, the
# same bytes each time. In the unpacked folder `make install` installs them without the kit. The files are gathered outside of the
# repository, in which rt allows no .antt file that is of no crate.
dist:
	test -x bin/ncdump || $(MAKE) bin/ncdump
	test -x bin/ncgen || $(MAKE) bin/ncgen
	test -x bin/nccheck || $(MAKE) bin/nccheck
	rm -rf dist
	mkdir dist
	folder=$$(mktemp -d) && trap 'rm -rf "$$folder"' EXIT && to=$$folder/$(release) && \
		install -d $$to/bin $$to/man $$to/docs $$to/samples $$to/completions && \
		install -s -m 755 bin/ncdump bin/ncgen bin/nccheck $$to/bin && \
		install -m 644 man/* $$to/man && \
		install -m 644 docs/* $$to/docs && \
		install -m 644 completions/* $$to/completions && \
		find crates -name out -prune -o -path '*/specs/*.antt' -exec install -D -m 644 {} $$to/{} \; && \
		install -m 644 samples/*.cdl samples/*.nc $$to/samples && \
		install -m 644 Makefile VERSION README.md CHANGELOG.md CONTRIBUTING.md $$to && \
		(cd $$to && find * -type f | LC_ALL=C sort | xargs sha256sum >../SHA256SUMS && mv ../SHA256SUMS .) && \
		tar --sort=name --owner=0 --group=0 --numeric-owner --mode=u=rwX,go=rX --mtime='$(day) UTC' -C $$folder -cf - $(release) \
		| gzip -n9 >dist/$(release).tar.gz

# Proves every crate, over what earlier runs kept.
check:
	@$(sources)
	./kit.sh rt all check

# Removes what was built, and what earlier runs kept.
clean:
	@$(sources)
	rm -rf bin dist crates/*/out

.PHONY: all try kit test test-contracts test-proofs test-definitions test-named test-bodies test-programs test-scale install installcheck uninstall names dist check clean
