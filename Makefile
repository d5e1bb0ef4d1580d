# `make help` lists the targets. Nothing is proved twice: rt runs only where a file of crates/ is newer than what was made
# of it, so after a build `make install` needs no rt. What rt makes stands in crates/NAME/out/; what is built for users is copied to target/.
.PHONY: all help run test archive shared program install uninstall clean folders
.DELETE_ON_ERROR:
.NOTPARALLEL: # two rt at a time would wait for each other

PREFIX ?= /usr/local
LIBDIR ?= $(PREFIX)/lib
MANDIR ?= $(PREFIX)/share/man
VERSION := $(shell tools/version)
MAJOR := $(firstword $(subst ., ,$(VERSION)))

ARCHIVE := target/staticlib/libkhonvertseg.a
SHARED := target/shared/libkhonvertseg.so
PROGRAM := target/bin/guillotine
# Folders too: they are newer when a file of theirs is gone. What begins with a dot is an editor's.
SOURCES := crates.txt $(shell find $(wildcard $(foreach part,src specs proofs,crates/*/$(part))) ! -name '.*' ! -name '* *' -print)

all: program archive shared ## archive, shared library and program (when no target is named)

help: ## this list
	@awk -F ':.*## ' '/^[a-z]+:.*## / { printf "make %-10s %s\n", $$1, $$2 }' Makefile
	@echo "Folders of install and uninstall: PREFIX (now $$PREFIX), LIBDIR, MANDIR; DESTDIR stands before each."

run: ## cuts an example sheet, 3 by 3, with two kinds of piece: 1 by 2 worth 2, 2 by 3 worth 6
	@mkdir -p target && $(MAKE) -sq $(PROGRAM) || { \
	    echo 'First the program is proved and built: some minutes from nothing. What rt says goes to target/run.log.'; \
	    $(MAKE) -s $(PROGRAM) >target/run.log 2>&1 || { tail -n 20 target/run.log; exit 1; }; }
	printf '3 3\n1 2 2\n2 3 6\n' | tools/cut

test: ## proves all that was not proved before, tries every must-fail edit, runs all tests (the gate, .ci/run)
	bash .ci/run

archive: $(ARCHIVE) ## target/staticlib/libkhonvertseg.a, for C
$(ARCHIVE): $(SOURCES)
	cd crates/khonvertseg_c && rt lib
	@install -D -m 644 crates/khonvertseg_c/out/libkhonvertseg_c.a $@

program: $(PROGRAM) ## target/bin/guillotine
# rt runs what it has built, here on no input.
$(PROGRAM): $(SOURCES)
	cd crates/guillotine && rt run </dev/null
	@install -D -m 755 crates/guillotine/out/guillotine $@

# Every symbol is bound when the library is loaded, so that no first call takes the linker's stack.
shared: $(SHARED) ## target/shared/libkhonvertseg.so, for C and for languages that load a library
$(SHARED): $(ARCHIVE) tools/khonvertseg.map include/khonvertseg.h Makefile
	@mkdir -p $(@D)
	$$(tools/compiler) -shared -o $@ -Wl,-soname,libkhonvertseg.so.$(MAJOR) -Wl,--version-script,tools/khonvertseg.map \
	    -Wl,-z,defs -Wl,-z,text -Wl,-z,noexecstack -Wl,-z,now -Wl,--whole-archive $(ARCHIVE) -Wl,--no-whole-archive

# The shell takes the folders from its environment, so that spaces do no harm.
export DESTDIR PREFIX LIBDIR MANDIR
BIN := "$$DESTDIR$$PREFIX/bin"
INCLUDE := "$$DESTDIR$$PREFIX/include"
LIB := "$$DESTDIR$$LIBDIR"
MAN := "$$DESTDIR$$MANDIR"

# A file with version and folders filled in: from, to, mode.
fill = rm -f $(2) && sed "s|@VERSION@|$(VERSION)|; s|@PREFIX@|$$PREFIX|; s|@LIBDIR@|$$LIBDIR|" $(1) >$(2) && chmod $(3) $(2)

# What sed, pkg-config and install can't take in a name is refused.
folders:
	@for folder in "$$PREFIX" "$$LIBDIR" "$$MANDIR"; do \
	    case $$folder$$(printf '%s' "$$folder" | tr -dc '\n' | tr '\n' '#') in [!/]* | '' | *' ' | *[\"\'\`\|\;\&\$$\#\\]*) \
	        printf "make: the folder '%s' must begin with / and have none of \" ' \` | ; & $$ # \\\\, no line feed, no blank at its end\n" "$$folder" >&2; exit 1 ;; \
	    esac; done
	@case $$DESTDIR in -*) echo 'make: DESTDIR must not begin with -' >&2; exit 1 ;; esac

install: folders all ## commands, header, archive, shared library, pkg-config file, man pages (then perhaps ldconfig)
	install -d $(BIN) $(INCLUDE) $(LIB)/pkgconfig $(MAN)/man1 $(MAN)/man3
	install -T -m 755 $(PROGRAM) $(BIN)/guillotine
	install -T -m 755 tools/block $(BIN)/khon-block
	$(call fill,tools/cut,$(BIN)/khon-cut,755)
	install -T -m 644 include/khonvertseg.h $(INCLUDE)/khonvertseg.h
	install -T -m 644 $(ARCHIVE) $(LIB)/libkhonvertseg.a
	install -T -m 644 $(SHARED) $(LIB)/libkhonvertseg.so.$(VERSION)
	ln -sfT libkhonvertseg.so.$(VERSION) $(LIB)/libkhonvertseg.so.$(MAJOR)
	ln -sfT libkhonvertseg.so.$(MAJOR) $(LIB)/libkhonvertseg.so
	$(call fill,tools/khonvertseg.pc.in,$(LIB)/pkgconfig/khonvertseg.pc,644)
	$(call fill,man/khon-cut.1,$(MAN)/man1/khon-cut.1,644)
	$(call fill,man/khonvertseg.3,$(MAN)/man3/khonvertseg.3,644)

uninstall: folders ## removes the files that install put there, no folder and no newer library
	rm -f $(BIN)/guillotine $(BIN)/khon-block $(BIN)/khon-cut $(INCLUDE)/khonvertseg.h $(LIB)/libkhonvertseg.a
	[ "$$(readlink $(LIB)/libkhonvertseg.so.$(MAJOR))" != libkhonvertseg.so.$(VERSION) ] || \
	    rm -f $(LIB)/libkhonvertseg.so.$(MAJOR) $(LIB)/libkhonvertseg.so
	rm -f $(LIB)/libkhonvertseg.so.$(VERSION)
	rm -f $(LIB)/pkgconfig/khonvertseg.pc $(MAN)/man1/khon-cut.1 $(MAN)/man3/khonvertseg.3

clean: ## removes target/ and each out/ of crates/, all that was built
	rm -rf target crates/*/out
