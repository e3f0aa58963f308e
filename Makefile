# The library for C: proved, made, installed. It needs the Rattle kit (`rt`); `check` needs what README.md names for the gate.
PREFIX = /usr/local
LIBDIR = $(PREFIX)/lib
INCLUDEDIR = $(PREFIX)/include
PKGCONFIGDIR = $(LIBDIR)/pkgconfig

# The crate that is exported, whose name the archive bears.
NAME = curlewreel
ARCHIVE = target/staticlib/lib$(NAME).a
HEADER = include/curlewreel.h
VERSION = $(shell sed -n 's/^\#define CURLEWREEL_VERSION "\(.*\)"$$/\1/p' $(HEADER))

SOURCES = crates.txt $(shell find crates -path '*/out' -prune -o \( -name '*.rt' -o -name '*.antt' \) -print)

all: $(ARCHIVE)

# Proves the library and all under it, on all cores; then makes the archive.
$(ARCHIVE): $(SOURCES)
	tools/prove $(NAME)

# Copies header and archive below DESTDIR and PREFIX, with a file for pkg-config.
install: $(ARCHIVE)
	install -d "$(DESTDIR)$(INCLUDEDIR)" "$(DESTDIR)$(LIBDIR)" "$(DESTDIR)$(PKGCONFIGDIR)"
	install -m 644 $(HEADER) "$(DESTDIR)$(INCLUDEDIR)"
	install -m 644 $(ARCHIVE) "$(DESTDIR)$(LIBDIR)"
	printf '%s\n' 'prefix=$(PREFIX)' 'includedir=$(INCLUDEDIR)' 'libdir=$(LIBDIR)' '' 'Name: $(NAME)' \
	    'Description: The key engine of Baseline Privacy Plus, proved' 'Version: $(VERSION)' \
	    'Cflags: -I$${includedir}' 'Libs: -L$${libdir} -l$(NAME)' >target/$(NAME).pc
	install -m 644 target/$(NAME).pc "$(DESTDIR)$(PKGCONFIGDIR)"

# Runs the gate: everything proved, and the checks outside Rattle.
check:
	.ci/run

# Removes all that was made, the proofs too: the next `all` proves everything again.
clean:
	rm -rf target crates/*/out

.PHONY: all install check clean
