# Installs the program, its manual, its completions for bash, and the companion, a package for Python with the script daq-view:
#   make install PREFIX=/usr/local        make uninstall PREFIX=/usr/local
# With DESTDIR all goes below that folder, as for a package. `make test` runs the merge gate, `make test-companion` the tests of the companion.

PREFIX = /usr/local
DESTDIR =
bin = $(DESTDIR)$(PREFIX)/bin
man = $(DESTDIR)$(PREFIX)/share/man/man1
completions = $(DESTDIR)$(PREFIX)/share/bash-completion/completions
share = $(DESTDIR)$(PREFIX)/share/daq
# Folders that an install may make, the inner ones first. An uninstall removes those that are empty then.
folders = $(man) $(completions) $(addprefix $(DESTDIR)$(PREFIX)/, share/man share/bash-completion share bin)

# The script proves and builds what is missing or older than its sources.
build:
	./daq build

install: build
	install -D -m 755 crates/daq/out/daq $(bin)/daq
	install -D -m 644 docs/daq.1 $(man)/daq.1
	install -D -m 644 completions/daq.bash $(completions)/daq
	install -D -m 755 companion/daq-view $(bin)/daq-view
	install -d $(share)/python/daq
	install -m 644 companion/daq/*.py companion/daq/page.html $(share)/python/daq

uninstall:
	rm -f $(bin)/daq $(bin)/daq-view $(man)/daq.1 $(completions)/daq
	rm -rf $(share)
	rmdir $(folders) 2>/dev/null || true

test:
	.ci/run

test-companion:
	python3 -m unittest discover -s companion/tests

.PHONY: build install uninstall test test-companion
