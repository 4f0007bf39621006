# make install PREFIX=/usr/local    installs the program, the library, its header and its data, from the ready-made files of release/
# make uninstall PREFIX=/usr/local  takes them away
# make examples                     builds the front ends of examples/c beside their sources
# DESTDIR stands before each path, for who makes a package.
.POSIX:

PREFIX = /usr/local
DESTDIR =
CC = cc
CFLAGS = -O2 -std=c99 -Wall -Wextra
INSTALL = install

BIN = $(DESTDIR)$(PREFIX)/bin
LIB = $(DESTDIR)$(PREFIX)/lib
INCLUDE = $(DESTDIR)$(PREFIX)/include
MAN = $(DESTDIR)$(PREFIX)/share/man/man1
DATA = $(DESTDIR)$(PREFIX)/share/redisplay

PROGRAMS = release/redisplay release/redisplay_audit
LIBRARIES = release/libredisplay_unicode.a release/libredisplay.a
SHARED_SOURCES = examples/c/view.c examples/c/terminal.c
HEADERS = include/redisplay.h examples/c/view.h examples/c/terminal.h

all: examples

examples: examples/c/edit examples/c/pager

examples/c/edit: examples/c/edit.c $(SHARED_SOURCES) $(HEADERS) $(LIBRARIES)
	$(CC) $(CFLAGS) -Iinclude -o $@ examples/c/edit.c $(SHARED_SOURCES) $(LIBRARIES)

examples/c/pager: examples/c/pager.c $(SHARED_SOURCES) $(HEADERS) $(LIBRARIES)
	$(CC) $(CFLAGS) -Iinclude -o $@ examples/c/pager.c $(SHARED_SOURCES) $(LIBRARIES)

install:
	$(INSTALL) -d $(BIN) $(LIB)/pkgconfig $(INCLUDE) $(MAN) $(DATA)
	$(INSTALL) -m 755 $(PROGRAMS) $(BIN)
	$(INSTALL) -m 644 $(LIBRARIES) $(LIB)
	$(INSTALL) -m 644 include/redisplay.h $(INCLUDE)
	$(INSTALL) -m 644 docs/redisplay.1 $(MAN)
	$(INSTALL) -m 644 data/unicode/*.txt $(DATA)
	version=$$(sed -n 's/^#define REDISPLAY_VERSION "\(.*\)"/\1/p' include/redisplay.h) && \
	    sed -e 's|@PREFIX@|$(PREFIX)|' -e "s|@VERSION@|$$version|" redisplay.pc.in >$(LIB)/pkgconfig/redisplay.pc

uninstall:
	rm -f $(BIN)/redisplay $(BIN)/redisplay_audit $(LIB)/libredisplay.a $(LIB)/libredisplay_unicode.a
	rm -f $(LIB)/pkgconfig/redisplay.pc $(INCLUDE)/redisplay.h $(MAN)/redisplay.1
	rm -rf $(DATA)

clean:
	rm -f examples/c/edit examples/c/pager

.PHONY: all examples install uninstall clean
