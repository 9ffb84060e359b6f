# make try        runs r2u2, unproved, over SPEC and TRACE, by default those of the first example; make unproved builds what it runs
# make test       plays the cases, but those named (long), and runs the tests of the tools, in some minutes; what isn't proved
#                 is tested unproved
# make            proves and builds both programs into build/
# make check      passes the whole gate: proofs, edits that must fail, cases; the programs and the library come into build/,
#                 and the programs are tried on real files, pipes and terminals
# make install    installs programs, tools, man pages, completions and syntax under PREFIX, once they are built: it proves nothing;
#                 make uninstall removes them
# make docs       makes the pages into a site with search, build/site/index.html, where mkdocs and mkdocs-material are there
# make dist       a tarball of all that `make install` installs, with the pages and checksums
# make vscode     packs the extension for VS Code into build/
# embed/embed.mk has the goals of the library for other languages: embed, check-embed, python, deb

PREFIX ?= /usr/local
SPEC ?= examples/grant.c2po
TRACE ?= examples/grant.csv
VERSION = $(shell cat VERSION)

PROGRAMS = r2u2 c2po
BUILT = $(PROGRAMS:%=build/%)
TOOLS = budget check compare convert generate play probe timeline trace verdicts watch why
NAMES = $(PROGRAMS) $(TOOLS:%=r2u2-%)

INTO = $(DESTDIR)$(PREFIX)
BASH = $(INTO)/share/bash-completion/completions
ZSH = $(INTO)/share/zsh/site-functions
FISH = $(INTO)/share/fish/vendor_completions.d
VIM = $(INTO)/share/vim/vimfiles
EMACS = $(INTO)/share/emacs/site-lisp
SHARED = $(INTO)/share/r2u2
VIM_FOLDERS = autoload compiler ftdetect ftplugin syntax

# All lines of a script but those of cases whose names end in (long); an empty line ends a case.
SHORT_CASES = /^case .*\(long\)$$/ { long = 1 } !long; /^$$/ { long = 0 }

.PHONY: all unproved try test check docs dist install uninstall built built-programs clean vscode $(PROGRAMS)
.NOTPARALLEL:

# As many proofs side by side as there are processors.
all:
	dev/prove $(PROGRAMS)

$(PROGRAMS):
	dev/prove $@

# An installation takes what is built. What isn't is named, with the command that builds it and the time that takes.
built: built-programs

built-programs:
	@missing=; for file in $(BUILT); do [ -f $$file ] || { missing=1; echo "install: no $$file" >&2; }; done; \
	    [ -z "$$missing" ] || { echo 'install: nothing is installed. "make" proves and builds both programs, in 17 to 31 minutes' >&2; exit 1; }

# Both programs without their proofs, built once for the same sources, in a minute or two.
unproved:
	@dev/unproved

try: unproved
	@build/unproved/r2u2 --source '$(SPEC)' '$(TRACE)' || { code=$$?; R2U2=build/unproved/r2u2 C2PO=build/unproved/c2po tools/check '$(SPEC)' '$(TRACE)'; exit $$code; }

# Side by side: the tests as they go, and what the cases gave at the end. `rt try` runs the cases compiled with checks,
# which takes longest, so the tests leave it the processor that it needs.
test:
	@echo 'The gate is "make check".'
	@[ -x build/r2u2 ] && [ -x build/c2po ] || dev/unproved
	@mkdir -p build
	@(cd crates/worked_cases && awk '$(SHORT_CASES)' stdin | rt try --steps 1 --seconds 300) > build/cases.log 2>&1 & cases=$$!; \
	    nice dev/test; tests=$$?; \
	    wait $$cases; played=$$?; \
	    grep -v '^interpreter: ' build/cases.log; \
	    [ $$tests -eq 0 ] && [ $$played -eq 0 ]

# The library comes along where the kit's gate builds it; else `rt lib` in its folder does.
check:
	rt ci
	@mkdir -p build
	cp $(wildcard crates/r2u2_c/out/libr2u2_c.a) $(foreach name,$(PROGRAMS),crates/$(name)/out/$(name)) build
	dev/edges

docs:
	dev/site

DIST = r2u2-$(VERSION)-$(shell uname -m)
PAGES = README.md CONTRIBUTING.md CHANGELOG.md CITATION.cff VERSION docs examples bench/README.md

# The tarball has the same bytes for the same files: sorted, without names of users, with the time of the last commit.
dist:
	rm -rf build/$(DIST)
	$(MAKE) install DESTDIR=$(abspath build/$(DIST)) PREFIX=
	sed -i 's|^prefix=.*|prefix=$${pcfiledir}/../..|' build/$(DIST)/lib/pkgconfig/r2u2.pc
	install -d build/$(DIST)/share/doc/r2u2
	tar -cf - --exclude='*.o' --exclude=examples/embed/grants $(PAGES) | tar -xf - -C build/$(DIST)/share/doc/r2u2
	cd build/$(DIST) && find . -type f ! -name SHA256SUMS | LC_ALL=C sort | xargs sha256sum > SHA256SUMS
	tar -czf build/$(DIST).tar.gz -C build --sort=name --owner=0 --group=0 --numeric-owner --mtime=@$$(git log -1 --format=%ct 2>/dev/null || echo 0) $(DIST)
	rm -rf build/$(DIST)
	@echo build/$(DIST).tar.gz

install: built
	install -d $(INTO)/bin $(INTO)/share/man/man1 $(INTO)/share/man/man5 $(SHARED)/tools/lib $(SHARED)/vscode $(BASH) $(ZSH) $(FISH) $(VIM_FOLDERS:%=$(VIM)/%) $(EMACS)
	install -m 755 $(BUILT) $(INTO)/bin
	install -m 755 tools/r2u2-tools $(SHARED)/tools
	for tool in $(TOOLS); do ln -sf r2u2-tools $(SHARED)/tools/$$tool; done
	cd tools && find lib -name '*.*' -type f ! -name '*.pyc' -exec install -D -m 644 '{}' '$(abspath $(SHARED))/tools/{}' ';'
	for tool in $(TOOLS); do ln -sf ../share/r2u2/tools/$$tool $(INTO)/bin/r2u2-$$tool; done
	ln -sf ../share/r2u2/tools/r2u2-tools $(INTO)/bin/r2u2-tools
	install -m 644 $(NAMES:%=docs/man/%.1) $(INTO)/share/man/man1
	install -m 644 docs/man/c2po.5 $(INTO)/share/man/man5
	install -m 644 completions/r2u2.bash $(BASH)/r2u2
	for name in $(filter-out r2u2,$(NAMES)); do ln -sf r2u2 $(BASH)/$$name; done
	install -m 644 completions/_r2u2 $(ZSH)
	install -m 644 completions/r2u2.fish $(FISH)
	for name in $(filter-out r2u2,$(NAMES)); do ln -sf r2u2.fish $(FISH)/$$name.fish; done
	for part in $(VIM_FOLDERS); do install -m 644 editors/vim/$$part/c2po.vim $(VIM)/$$part; done
	install -m 644 editors/emacs/c2po-mode.el $(EMACS)
	install -D -m 644 docs/reference/messages.md $(SHARED)/docs/reference/messages.md
	cd examples && find . '(' -name '*.c2po' -o -name '*.csv' ')' -type f -exec install -D -m 644 '{}' '$(abspath $(SHARED))/examples/{}' ';'
	cp -R editors/vscode/. $(SHARED)/vscode
	sed "s/\"version\": \"0.0.0\"/\"version\": \"$(VERSION)\"/" editors/vscode/package.json > $(SHARED)/vscode/package.json

uninstall:
	rm -f $(NAMES:%=$(INTO)/bin/%) $(INTO)/bin/r2u2-tools $(NAMES:%=$(INTO)/share/man/man1/%.1) $(INTO)/share/man/man5/c2po.5 $(NAMES:%=$(BASH)/%) $(NAMES:%=$(FISH)/%.fish)
	rm -f $(ZSH)/_r2u2 $(VIM_FOLDERS:%=$(VIM)/%/c2po.vim) $(EMACS)/c2po-mode.el
	rm -rf $(SHARED)

vscode:
	dev/vscode

clean:
	rm -rf build

-include embed/embed.mk
