# Installs the library for C, C++ and Rust with examples, the programs, their manual pages and completions under PREFIX:
#
#   make install PREFIX=/usr/local     (DESTDIR is put in front; LIB=lib/x86_64-linux-gnu names another folder of libraries)
#   make uninstall PREFIX=/usr/local   takes all of it away
#   make dist                          target/dist: a folder, a tar file and a Debian package that need neither rt nor this repository
#   make check                         every test but the proofs, which are .ci/run
#
# Builds first what is not built: rt proves and builds the library, recue and classes, hosts/desk/build the program tickdrizzle. What is
# built is taken as it is.
PREFIX ?= /usr/local
LIB ?= lib
# What tickdrizzle.pc has for a prefix, which is another one where the folder may be moved; where zsh looks below share.
PC_PREFIX ?= $(PREFIX)
ZSH ?= zsh/site-functions

VERSION := $(shell sed -n 's/^.define TICKDRIZZLE_VERSION "\(.*\)"/\1/p' hosts/c/tickdrizzle.h)
MAJOR := $(firstword $(subst ., ,$(VERSION)))
SHARED := libtickdrizzle.so.$(VERSION)

ARCHIVE := target/staticlib/libexports.a
DESK := target/desk/release/tickdrizzle
PROGRAMS := target/bin/recue target/bin/classes $(DESK)
PAGES := $(notdir $(wildcard docs/man/*))
EXAMPLES := app.c calls.c example.c
C_EXAMPLES := share/doc/tickdrizzle/examples/c

all: library $(PROGRAMS)

library: target/lib/libtickdrizzle.a target/lib/$(SHARED)

target/bin/%:
	hosts/built $*

$(DESK):
	hosts/desk/build

$(ARCHIVE):
	hosts/built exports

target/lib/libtickdrizzle.a: $(ARCHIVE)
	mkdir -p target/lib
	cp $< $@

# The archive is position independent, and tickdrizzle_... are its only global symbols. Copies and no links, which rt ci refuses in a checkout.
target/lib/$(SHARED): $(ARCHIVE)
	mkdir -p target/lib
	$(CC) -shared -Wl,-soname,libtickdrizzle.so.$(MAJOR) -Wl,-z,defs,-z,relro,-z,now -Wl,--whole-archive $< -Wl,--no-whole-archive -o $@
	cp --remove-destination $@ target/lib/libtickdrizzle.so.$(MAJOR)
	cp --remove-destination $@ target/lib/libtickdrizzle.so

# Below DESTDIR and PREFIX, which may have spaces.
HERE = "$(DESTDIR)$(PREFIX)"
BASH_COMPLETION = share/bash-completion/completions/tickdrizzle
ZSH_COMPLETION = share/$(ZSH)/_tickdrizzle
FISH_COMPLETION = share/fish/vendor_completions.d/tickdrizzle.fish
FILES = bin/tickdrizzle bin/tickdrizzle-recue bin/tickdrizzle-classes include/tickdrizzle.h \
	$(foreach name,libtickdrizzle.a libtickdrizzle.so libtickdrizzle.so.$(MAJOR) $(SHARED) pkgconfig/tickdrizzle.pc,$(LIB)/$(name)) \
	$(foreach page,$(PAGES),share/man/man$(subst .,,$(suffix $(page)))/$(page)) \
	$(addprefix $(C_EXAMPLES)/,$(EXAMPLES)) $(BASH_COMPLETION) $(ZSH_COMPLETION) $(FISH_COMPLETION)

install: all
	install -d $(foreach folder,$(sort $(dir $(FILES))),$(HERE)/$(folder))
	install $(DESK) $(HERE)/bin/tickdrizzle
	install target/bin/recue $(HERE)/bin/tickdrizzle-recue
	install target/bin/classes $(HERE)/bin/tickdrizzle-classes
	install -m 644 hosts/c/tickdrizzle.h $(HERE)/include
	install -m 644 target/lib/libtickdrizzle.a target/lib/$(SHARED) $(HERE)/$(LIB)
	ln -sf $(SHARED) $(HERE)/$(LIB)/libtickdrizzle.so.$(MAJOR)
	ln -sf libtickdrizzle.so.$(MAJOR) $(HERE)/$(LIB)/libtickdrizzle.so
	{ printf 'prefix=%s\nlibdir=$${prefix}/%s\n' '$(PC_PREFIX)' '$(LIB)'; cat hosts/c/tickdrizzle.pc.in; echo 'Version: $(VERSION)'; } \
		>$(HERE)/$(LIB)/pkgconfig/tickdrizzle.pc
	chmod 644 $(HERE)/$(LIB)/pkgconfig/tickdrizzle.pc
	for page in $(PAGES); do install -m 644 docs/man/$$page $(HERE)/share/man/man$${page##*.} || exit; done
	install -m 644 $(addprefix hosts/c/,$(EXAMPLES)) $(HERE)/$(C_EXAMPLES)
	$(DESK) completions bash >$(HERE)/$(BASH_COMPLETION)
	$(DESK) completions zsh >$(HERE)/$(ZSH_COMPLETION)
	$(DESK) completions fish >$(HERE)/$(FISH_COMPLETION)
	cd $(HERE) && chmod 644 $(BASH_COMPLETION) $(ZSH_COMPLETION) $(FISH_COMPLETION)
	[ -n "$(DESTDIR)" ] || [ "$$(id -u)" -ne 0 ] || ldconfig

uninstall:
	hosts/package/remove $(HERE) $(FILES)
	[ -n "$(DESTDIR)" ] || [ "$$(id -u)" -ne 0 ] || ldconfig

dist: all
	hosts/package/dist

check:
	hosts/check

.PHONY: all library install uninstall dist check
