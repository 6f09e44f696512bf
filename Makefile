PREFIX = /usr/local
# The folder of libraries below it, as lib/x86_64-linux-gnu below /usr on Debian.
LIBDIR = lib
# The name under which the program is installed. Under ssh-keygen it would hide OpenSSH's program
# where its folder stands first on the PATH.
NAME = krl-keygen
# How many seconds make fuzz runs.
SECONDS = 60

.PHONY: build test test_library fault_injection fuzz bench install uninstall deb deb-programs \
  library install-library uninstall-library

# Proves and builds the programs.
build:
	./ssh-keygen -h >/dev/null
	./krl -h >/dev/null

# All of the checking: each proof from nothing, and the program that was proved beside OpenSSH.
test:
	tests/all

# libkrl as programs in C, Rust, Go and Python call it: a part of make test.
test_library: build library
	tests/run library servers

# Each allocation, read and write of many runs fails in turn; make test does this for fewer of them.
fault_injection: build
	tests/cases/inject_faults

# Files changed at random, beside OpenSSH, and then libkrl beside the program.
fuzz: build library
	tests/fuzz/fuzz --seconds $(SECONDS)
	tests/cases/library --seconds $(SECONDS)

# Time and memory beside OpenSSH, as ratios.
bench: build
	bench/run

# The built programs, their manual pages and their completions: they need nothing of this folder. A
# program that is not ours is left as it is, unless FORCE=1 is given.
install: build
	packaging/install '$(DESTDIR)' '$(PREFIX)' '$(NAME)' '$(FORCE)'
	packaging/install '$(DESTDIR)' '$(PREFIX)' krl '$(FORCE)'

uninstall:
	packaging/uninstall '$(DESTDIR)' '$(PREFIX)' '$(NAME)'
	packaging/uninstall '$(DESTDIR)' '$(PREFIX)' krl

# libkrl, which asks revocation lists for programs in other languages, in built/.
library:
	library/build

# libkrl, its header, its manual page and what pkg-config asks for; ldconfig then makes it known.
install-library: library
	packaging/install_library '$(DESTDIR)' '$(PREFIX)' '$(LIBDIR)' '$(FORCE)'

uninstall-library:
	packaging/uninstall_library '$(DESTDIR)' '$(PREFIX)'

# Debian packages: krl-keygen, which stands beside OpenSSH's ssh-keygen, libkrl1 and libkrl-dev. The
# programs that make packages are looked for before anything is proved.
deb:
	packaging/tools library
	$(MAKE) build library
	packaging/deb
	packaging/library_debs

# The package krl-keygen alone.
deb-programs:
	packaging/tools
	$(MAKE) build
	packaging/deb
