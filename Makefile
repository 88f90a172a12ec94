.PHONY: test test-part growths check edits prolly lib demo install install-lib uninstall dist bench

PREFIX ?= /usr/local
PROGRAM = crates/prolly/out/prolly
TESTS = $(foreach name,format root worker sort build line command,crates/prolly_$(name)_tests/out/prolly_$(name)_tests_tests)
MADE = $(dir $(PROGRAM))share
SHARE = $(DESTDIR)$(PREFIX)/share
LIBRARY = library/out
LIB = $(DESTDIR)$(PREFIX)/lib

# The gate: every proof, the wrong bodies that tell most, the tests of the crates, the programs, and then refused memory, and the
# program as a user runs it. Crates are proved from nothing. Some kits pass over a crate if an earlier gate on this machine has
# passed the same files.
test:
# `rt ci` takes no links, and the library that an earlier run made has one. It is made anew below.
	rm -f library/out/libprolly.so
	rt ci
	tools/mark_built.py
	tools/edits.py --gate
	$(MAKE) lib
	tests/growths_of_calls.py $(TESTS)
	tests/run.py $(PROGRAM)

# One part of what the gate does with the program, which has to be there: of the file tests/cases/diffs.py
# `make test-part PART=diffs`.
test-part:
	tests/run.py $(PROGRAM) $(PART)

# Refuses memory to calls of the libraries, each growth in turn.
growths:
	for tests in $(dir $(TESTS)); do (cd $$tests.. && rt test -- growths) || exit; done
	tests/growths_of_calls.py $(TESTS)

# The proofs alone, over what earlier runs kept.
check:
	rt all check

# All wrong bodies, those that the gate leaves out too, over what `make check` kept: of all crates, or as
# `make edits CRATE="prolly_text prolly_answer"`. JOBS=2 tries the edits of two crates at once.
edits:
	tools/edits.py $(if $(JOBS),--jobs $(JOBS)) $(CRATE)

# Proves and builds the program, with a line a crate, and runs it once: the root of the empty map. JOBS=2 proves two crates at once.
prolly:
	tools/prove.py $(JOBS)

# The library for C, proved and built: libprolly.a and libprolly.so, which have all that they need but the C library.
lib:
	cd crates/prolly_c && rt lib
	library/make.sh crates/prolly_c/out/libprolly_c.a $(LIBRARY)

# From a text to a root.
demo: prolly
	demo/run $(PROGRAM)

# Where the program is there, it is taken as it is.
$(PROGRAM):
	tools/prove.py $(JOBS)

# The program, its manual page, and what bash, zsh and fish complete its words by. These are made from its helps. Beside it
# load.py, which loads tables of several columns. The library is there where `make lib` has made it.
install: $(PROGRAM)
	install -D -m 755 $(PROGRAM) $(DESTDIR)$(PREFIX)/bin/prolly
	install -m 755 examples/load.py $(DESTDIR)$(PREFIX)/bin/load.py
	share/words.py $(PROGRAM) $(MADE)
	install -D -m 644 $(MADE)/man1/prolly.1 $(SHARE)/man/man1/prolly.1
	install -D -m 644 $(MADE)/prolly.bash $(SHARE)/bash-completion/completions/prolly
	install -D -m 644 $(MADE)/_prolly $(SHARE)/zsh/site-functions/_prolly
	install -D -m 644 $(MADE)/prolly.fish $(SHARE)/fish/vendor_completions.d/prolly.fish
	if [ -e $(LIBRARY)/libprolly.a ]; then $(MAKE) -s install-lib; fi

# The library, its header, and what pkg-config tells of it.
install-lib:
	install -D -m 644 $(LIBRARY)/libprolly.a $(LIB)/libprolly.a
	install -D -m 644 $(LIBRARY)/libprolly.so.0 $(LIB)/libprolly.so.0
	ln -sf libprolly.so.0 $(LIB)/libprolly.so
	install -D -m 644 include/prolly.h $(DESTDIR)$(PREFIX)/include/prolly.h
	install -D -m 644 library/prolly.pc $(LIB)/pkgconfig/prolly.pc

uninstall:
	rm -f $(DESTDIR)$(PREFIX)/bin/prolly $(DESTDIR)$(PREFIX)/bin/load.py
	rm -f $(SHARE)/man/man1/prolly.1
	rm -f $(SHARE)/bash-completion/completions/prolly
	rm -f $(SHARE)/zsh/site-functions/_prolly
	rm -f $(SHARE)/fish/vendor_completions.d/prolly.fish
	rm -f $(LIB)/libprolly.a $(LIB)/libprolly.so $(LIB)/libprolly.so.0 $(LIB)/pkgconfig/prolly.pc
	rm -f $(DESTDIR)$(PREFIX)/include/prolly.h

# An archive for machines without the kit, made from what `make install` puts there and the documents.
dist: $(PROGRAM)
	share/dist.py $(PROGRAM)

# How long the program and its parts take.
bench: prolly lib
	cd crates/prolly_bench && rt run
	bench/run.py $(PROGRAM) crates/prolly_bench/out/prolly_bench
	bench/library.py
