# Installs plantbal and makes its Debian packages. The program itself is proved and built by ./build.
#
#   make install DESTDIR= PREFIX=/usr/local   the program, the package plantbal of Python, manual pages, completions, documents
#   make deb                                  packaging/out/plantbal_*.deb and packaging/out/python3-plantbal_*.deb, and those of what else is built
#   make wheel                                packaging/out/plantbal-*.whl, for pip: the package of Python with the program in it
#   make audit                                packaging/out/plantbal-audit.pyz: the audit without the program, in one file for a bare Python
#   make image                                packaging/out/root and the packages: what packaging/Containerfile makes its two images of
#   make release                              the packages, the wheel, the audit, the build record, the page (make page), SHA256SUMS and the tag's text (TAG)
#   make check-packages                       all packages made, unpacked elsewhere and tried
#   make install-verify VERIFY=..             plantbal-verify and its manual page, from coq/ (`make -C coq` proves and builds it)
#   make fuzz SECONDS=3600 SEED=1             changed inputs to all subcommands; failures are kept in KEEP
#   make install-library install-library-dev  what C calls, once ./build library has made it
#   make library-tries SESSIONS=100000 SECONDS=3600   changed sessions through the library against the program, then its fuzzer
#   make site                                 packaging/out/site/index.html: the documents as pages with search, with a gallery of plants
#   make core                                 packaging/out/CORE.pdf: docs/CORE.md, what a certified report means as mathematics
#   make page                                 the core in a web page: page/out/plantbal.html, and its module for other pages
#   make office-times                         how long the desk's pages take, how much a worker takes, how the grid scrolls; and twenty people at work
#   make office-kills N=200                   a worker, the database or a command of the office's service killed that often
#   make office-cuts N=200                    its power cut that often, on a disk of its own (root)
#   make office-people SECONDS=600            fifty people at work in it for so long
#   make book-tries KILLS=400 PAIRS=200       commands on a book killed, failing and in pairs, at each system call that writes
#   make cluster-tries PLANTS=10000 BOOKS=100 a night on three workers with disks of their own, one of which is killed
VERSION := $(shell cat VERSION)
PREFIX = /usr/local
DESTDIR =
PROGRAM = crates/plantbal/out/plantbal
VERIFY = coq/plantbal-verify
# The program as it was built, if PROGRAM is a stripped copy of it.
BUILT = $(PROGRAM)
PYTHON = /usr/bin/python3
DEBS = packaging/out
SITE = packaging/out/site
# The library as ./build library links it, and the folder below lib for it.
LIBRARY_FROM = libplantbal/out
TRIPLET =
LIBDIR = $(PREFIX)/lib$(TRIPLET)

# In quotes, since the folder of a packager may have a space in its name.
BIN = "$(DESTDIR)$(PREFIX)/bin"
SHARE = "$(DESTDIR)$(PREFIX)/share"
LIBEXEC = $(PREFIX)/libexec/plantbal
UNITS = $(PREFIX)/lib/systemd/system
# Debian's python3 looks into /usr/lib/python3/dist-packages, and for /usr/local into a folder with its version.
PYTHON_FOLDER = $(if $(filter /usr/local,$(PREFIX)),$(shell $(PYTHON) -c 'import sys; print("python%d.%d" % sys.version_info[:2])'),python3)
LIBRARY = lib/$(PYTHON_FOLDER)/dist-packages
# zsh looks into /usr/share/zsh/vendor-completions and, for what no package has, into /usr/local/share/zsh/site-functions.
ZSH = $(SHARE)/zsh/$(if $(filter /usr,$(PREFIX)),vendor-completions,site-functions)

PROGRAM_DOCUMENTS = README.md CHANGELOG.md docs/GUIDE.md docs/REFERENCE.md docs/AUDIT.md docs/FORMAT.md docs/DEFINITIONS.md docs/CORE.md docs/STATEMENT.md docs/ASSURANCE.md docs/DECISIONS.md docs/PAGE.md
VERIFY_DOCUMENTS = coq/README.md coq/Certified.v coq/Sound.v docs/ASSURANCE.md
DESK_DOCUMENTS = docs/MONTH_END.md docs/OFFICE.md docs/PYTHON.md docs/OPERATIONS.md
WORKBOOKS = examples/month_end examples/refinery_workbook examples/terminal_workbook examples/tank_farm_workbook

SECONDS = 600
SEED = 0
KEEP = /tmp/plantbal-fuzz

.PHONY: office-times office-kills office-cuts office-people install install-program install-desk install-doc install-office install-verify install-library install-library-dev deb wheel audit image release check-packages book-tries cluster-tries library-tries fuzz kills page core site clean

# The program is that of PLANTBAL.
office-times:
	set -e; room=$$(mktemp -d); trap 'rm -rf "$$room"' EXIT; $(PYTHON) python/tests/office/times.py make "$$room"; \
	for what in pages grid; do $(PYTHON) python/tests/office/times.py $$what "$$room"; done
	PLANTBAL_BOOKS=5 PLANTBAL_PEOPLE=4 $(PYTHON) -m pytest -q python/tests/office/test_bad_input.py -k at_once

install: install-program install-desk

$(PROGRAM):
	@echo "make: there is no $(PROGRAM): ./build proves and builds it" >&2; exit 1

install-program: $(PROGRAM)
	install -D -m 755 $(PROGRAM) $(BIN)/plantbal
	install -D -m 644 -t $(SHARE)/man/man1 docs/plantbal.1
	install -D -m 644 -t $(SHARE)/man/man5 docs/plantbal-session.5 docs/plantbal-report.5
	install -D -m 644 packaging/completions/plantbal.bash $(SHARE)/bash-completion/completions/plantbal
	install -D -m 644 packaging/completions/plantbal.zsh $(ZSH)/_plantbal
	install -D -m 644 packaging/completions/plantbal.fish $(SHARE)/fish/vendor_completions.d/plantbal.fish
	install -D -m 644 -t $(SHARE)/doc/plantbal $(PROGRAM_DOCUMENTS)
	install -D -m 644 -t $(SHARE)/doc/plantbal/statement docs/statement/*.md
	install -D -m 644 -t $(SHARE)/doc/plantbal/pictures docs/pictures/*
	install -D -m 644 -t $(SHARE)/doc/plantbal/examples examples/*.csv examples/*.jq
	install -D -m 644 -t $(SHARE)/doc/plantbal/examples/concentrator examples/concentrator/*
	install -D -m 644 -t $(SHARE)/doc/plantbal/examples/meters examples/meters/*
	install -D -m 644 -t $(SHARE)/doc/plantbal/examples/conformance examples/conformance/*
	packaging/build_record $(BUILT) $(BIN)/plantbal >$(BIN)/BUILD
	install -D -m 644 $(BIN)/BUILD $(SHARE)/plantbal/BUILD
	rm $(BIN)/BUILD

$(VERIFY):
	@echo "make: there is no $(VERIFY): make -C coq proves and builds it" >&2; exit 1

install-verify: $(VERIFY)
	install -D -m 755 $(VERIFY) $(BIN)/plantbal-verify
	install -D -m 644 -t $(SHARE)/man/man1 docs/plantbal-verify.1
	install -D -m 644 -t $(SHARE)/doc/plantbal-verify $(VERIFY_DOCUMENTS)

install-desk:
	packaging/install_library "$(DESTDIR)$(PREFIX)/$(LIBRARY)"
	install -d $(BIN)
	sed 's|@LIBRARY@|$(LIBRARY)|' packaging/plantbal-desk >$(BIN)/plantbal-desk
	chmod 755 $(BIN)/plantbal-desk
	install -D -m 644 -t $(SHARE)/man/man1 docs/plantbal-desk.1
	install -D -m 644 packaging/completions/plantbal-desk.bash $(SHARE)/bash-completion/completions/plantbal-desk
	install -D -m 644 packaging/completions/plantbal-desk.zsh $(ZSH)/_plantbal-desk
	install -D -m 644 packaging/completions/plantbal-desk.fish $(SHARE)/fish/vendor_completions.d/plantbal-desk.fish
	install -D -m 644 -t $(SHARE)/doc/python3-plantbal $(DESK_DOCUMENTS) examples/heat_exchanger.ipynb
	find $(WORKBOOKS) -type f | sort | while read -r file; do \
	    install -D -m 644 "$$file" $(SHARE)/doc/python3-plantbal/"$$file"; \
	done
	install -D -m 755 packaging/nightly "$(DESTDIR)$(LIBEXEC)/nightly"
	install -d "$(DESTDIR)$(UNITS)"
	for unit in packaging/*.service packaging/*.timer; do \
	    sed 's|@BIN@|$(PREFIX)/bin|; s|@LIBEXEC@|$(LIBEXEC)|; s|@DOC@|$(PREFIX)/share/doc/python3-plantbal|' "$$unit" >"$(DESTDIR)$(UNITS)/$$(basename "$$unit")"; \
	    chmod 644 "$(DESTDIR)$(UNITS)/$$(basename "$$unit")"; \
	done

$(SITE)/index.html:
	@echo "make: there is no $@: make site makes it" >&2; exit 1

install-doc: $(SITE)/index.html
	install -d $(SHARE)/doc/plantbal-doc
	cp -r $(SITE) $(SHARE)/doc/plantbal-doc/html
	chmod -R u=rwX,go=rX $(SHARE)/doc/plantbal-doc/html

install-office:
	install -D -m 755 packaging/office/plantbal-office $(BIN)/plantbal-office
	install -D -m 644 -t $(SHARE)/plantbal-office packaging/office/gunicorn.py packaging/office/nginx.conf
	install -D -m 644 -t $(SHARE)/doc/plantbal-office docs/OFFICE.md
	install -D -m 644 -t $(SHARE)/doc/plantbal-office/examples packaging/office/nginx.conf packaging/office/Caddyfile
	install -D -m 644 -t $(SHARE)/man/man8 docs/plantbal-office.8
	install -D -m 644 -t "$(DESTDIR)$(UNITS)" packaging/office/plantbal-office.service packaging/office/plantbal-office.socket

$(LIBRARY_FROM)/libplantbal.so.0:
	@echo "make: there is no $@: ./build library proves and builds it" >&2; exit 1

install-library: $(LIBRARY_FROM)/libplantbal.so.0
	install -D -m 644 $(LIBRARY_FROM)/libplantbal.so.0 "$(DESTDIR)$(LIBDIR)/libplantbal.so.0"

install-library-dev: $(LIBRARY_FROM)/libplantbal.so.0
	install -D -m 644 libplantbal/plantbal.h "$(DESTDIR)$(PREFIX)/include/plantbal.h"
	install -D -m 644 $(LIBRARY_FROM)/libplantbal.a "$(DESTDIR)$(LIBDIR)/libplantbal.a"
	ln -sf libplantbal.so.0 "$(DESTDIR)$(LIBDIR)/libplantbal.so"
	install -d "$(DESTDIR)$(LIBDIR)/pkgconfig"
	sed 's|@LIBDIR@|$(LIBDIR)|; s|@INCLUDEDIR@|$(PREFIX)/include|; s|@VERSION@|$(VERSION)|' libplantbal/plantbal.pc.in \
	    >"$(DESTDIR)$(LIBDIR)/pkgconfig/plantbal.pc"
	chmod 644 "$(DESTDIR)$(LIBDIR)/pkgconfig/plantbal.pc"
	install -D -m 644 -t $(SHARE)/man/man3 docs/plantbal.3
	install -D -m 644 -t $(SHARE)/doc/libplantbal-dev docs/LIBRARY.md
	install -D -m 644 -t $(SHARE)/doc/libplantbal-dev/examples libplantbal/examples/*

deb: $(PROGRAM)
	packaging/deb $(PROGRAM) $(DEBS)

wheel: $(PROGRAM)
	packaging/wheel $(PROGRAM) $(DEBS)

audit:
	packaging/audit_pyz $(DEBS)

image: deb
	packaging/image $(PROGRAM) $(DEBS)

release: $(PROGRAM)
	packaging/release $(PROGRAM) $(DEBS)

check-packages: $(PROGRAM)
	.ci/packages $(PROGRAM)

page:
	page/build page/out

site:
	packaging/site/build $(SITE)

core:
	packaging/core_pdf $(DEBS)/CORE.pdf

# A pull and a push of a database, killed 120 times each
kills:
	PLANTBAL_KILLS=120 /usr/bin/python3 -m pytest -q -s python/tests/test_database.py -k killed

COUNT = 1000
FIRST = 0

# the model of a session in Python beside the program, on random sessions of all kinds
compare-sessions: $(PROGRAM)
	PYTHONPATH=python /usr/bin/python3 python/tests/compare_sessions.py $(PROGRAM) $(COUNT) $(FIRST)

fuzz:
	.ci/fuzz --seconds $(SECONDS) --seed $(SEED) --keep $(KEEP)

clean:
	rm -rf $(DEBS) $(SITE)

KILLS = 400
PAIRS = 200

N = 200
OFFICE_TESTS = PATH=/usr/bin:$$PATH PYTHONDONTWRITEBYTECODE=1 PLANTBAL=$(abspath $(PROGRAM)) $(PYTHON) -m pytest -q -s -p no:logging python/tests/service

office-kills: $(PROGRAM)
	OFFICE_KILLS=$(N) $(OFFICE_TESTS)/test_stopped.py -k killed

office-cuts: $(PROGRAM)
	OFFICE_CUTS=$(N) $(OFFICE_TESTS)/test_stopped.py -k power

office-people: $(PROGRAM)
	OFFICE_SECONDS=$(SECONDS) $(OFFICE_TESTS)/test_many.py

book-tries: $(PROGRAM)
	.ci/book_tries $(PROGRAM) --kills $(KILLS) --pairs $(PAIRS) --steps all

SESSIONS = 100000

library-tries: $(PROGRAM) $(LIBRARY_FROM)/libplantbal.so.0
	libplantbal/tests/tries $(PROGRAM) $(SESSIONS) $(SECONDS)

PLANTS = 10000
BOOKS = 100

cluster-tries: $(PROGRAM)
	.ci/cluster_tries $(PROGRAM) --plants $(PLANTS) --books $(BOOKS)
