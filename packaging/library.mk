# The shared library, and what is installed of a library that is built. ../c/Makefile includes this, and all paths are from there.
#
#     make -C c install PREFIX=/usr/local    libraries, headers, what pkg-config and CMake read; programs where they are built, with pages
#     make -C c uninstall PREFIX=..          removes what that has put there; DESTDIR comes before PREFIX in both
#     make -C c stage OUT=FOLDER             lays the same out in a new or empty folder
#     make -C c check                        compiles and runs programs over it, in a folder of its own
#     make -C c lists                        makes the lists of symbols and of layouts anew, after a header has changed
#
# None of these needs the kit, if the library is built.

PACKAGING = ../packaging
VERSION := $(shell cat ../VERSION)
SONAME = libpovundiri.so.1
SHARED = out/libpovundiri.so.$(VERSION)

# The symbols are a list (a header's inline functions call some that programs should not). There is no -Bsymbolic: programs have a copy of
# povundiri_fork_number. Threads call the library as they end, so it stays loaded.
SHARED_FLAGS = -shared -pthread -Wl,-soname,$(SONAME) -Wl,--version-script=out/povundiri.map -Wl,-z,defs -Wl,-z,nodelete -Wl,-z,relro \
    -Wl,-z,now -Wl,--build-id=sha1

.DELETE_ON_ERROR:
.PHONY: stage install uninstall check headers lists

C_HEADERS = $(filter %.h,$(HEADERS))
out/povundiri.map: $(C_HEADERS) $(PACKAGING)/symbols.py
	python3 $(PACKAGING)/symbols.py $(C_HEADERS) > $@.new
	mv $@.new $@

$(SHARED): out/libpovundiri.a out/povundiri.map
	$(CC) $(SHARED_FLAGS) $(LDFLAGS) -Wl,--whole-archive out/libpovundiri.a -Wl,--no-whole-archive -o $@.new
	mv $@.new $@

STAGE = SHARED=$(SHARED) sh $(PACKAGING)/stage.sh

stage: all
	$(STAGE) "$(OUT)" $(HEADERS) povundiri_raise.cpp

install: all
	room=$$(mktemp -d) && trap 'rm -rf "$$room"' EXIT && $(STAGE) "$$room/stage" $(HEADERS) povundiri_raise.cpp && \
	    sh $(PACKAGING)/install.sh --from "$$room/stage" "$(DESTDIR)$(PREFIX)"

lists:
	mkdir -p out
	python3 $(PACKAGING)/symbols.py --since $(PACKAGING)/debian/libpovundiri1.symbols $(C_HEADERS) > out/symbols.new
	python3 $(PACKAGING)/layouts.py $(C_HEADERS) > out/layouts.new
	mv out/symbols.new $(PACKAGING)/debian/libpovundiri1.symbols
	mv out/layouts.new $(PACKAGING)/layouts.txt

headers:
	@echo $(HEADERS)

uninstall:
	sh $(PACKAGING)/install.sh --uninstall "$(DESTDIR)$(PREFIX)"

check: all
	room=$$(mktemp -d) && trap 'rm -rf "$$room"' EXIT && $(STAGE) "$$room/stage" $(HEADERS) povundiri_raise.cpp && \
	    sh $(PACKAGING)/check.sh "$$room/stage"
