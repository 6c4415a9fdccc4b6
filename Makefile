# Installs what ./build has put into out/. It builds nothing: what root installs was built without root.
#
#     make install [PREFIX=/usr/local] [DESTDIR=]     make uninstall, with the same words, removes these files again

PREFIX = /usr/local
DESTDIR =
INSTALL = install
BINDIR = $(PREFIX)/bin
LIBDIR = $(PREFIX)/lib
INCLUDEDIR = $(PREFIX)/include
DATADIR = $(PREFIX)/share

# An empty path would stand for the root, one with a blank for several, and one that does not begin at the root would depend on where make
# runs.
$(foreach name,PREFIX BINDIR LIBDIR INCLUDEDIR DATADIR,$(if $(strip $($(name))),,$(error $(name) is empty)))
$(foreach name,PREFIX BINDIR LIBDIR INCLUDEDIR DATADIR,$(if $(word 2,$($(name))),$(error $(name) has a blank in it: $($(name)))))
$(foreach name,PREFIX BINDIR LIBDIR INCLUDEDIR DATADIR,$(if $(filter-out /%,$($(name))),$(error $(name) has to begin with /: $($(name)))))

# Each file below out/ with the folder that it is installed in.
TOOL = $(BINDIR)/ruzkemp
LIBRARY = $(LIBDIR)/libruzkemp.a
KIT = $(LIBDIR)/libruzkemp.kit
PC = $(LIBDIR)/pkgconfig/ruzkemp.pc
HEADER = $(INCLUDEDIR)/ruzkemp.h
MANUAL = $(DATADIR)/man/man1/ruzkemp.1
BASH = $(DATADIR)/bash-completion/completions/ruzkemp
ZSH = $(DATADIR)/zsh/site-functions/_ruzkemp
FISH = $(DATADIR)/fish/vendor_completions.d/ruzkemp.fish
PAGES = TOOL.md RULES.md sample-disc.svg sample-report.png
PAGES_DIR = $(DATADIR)/doc/ruzkemp
ALL = $(TOOL) $(LIBRARY) $(KIT) $(PC) $(HEADER) $(MANUAL) $(BASH) $(ZSH) $(FISH) $(addprefix $(PAGES_DIR)/,$(PAGES))

# A folder as the pkg-config file names it: below the prefix, if it is, so that that file can be used elsewhere too.
below = $(patsubst $(PREFIX)/%,$${prefix}/%,$(1))

BUILT = bin/ruzkemp lib/libruzkemp.a lib/libruzkemp.kit lib/pkgconfig/ruzkemp.pc include/ruzkemp.h share/man/man1/ruzkemp.1 \
	share/bash-completion/completions/ruzkemp share/zsh/site-functions/_ruzkemp share/fish/vendor_completions.d/ruzkemp.fish \
	$(addprefix share/doc/ruzkemp/,$(PAGES))

all:
	./build

built:
	@for file in $(BUILT); do \
		test -f "out/$$file" || { echo "make install: there is no out/$$file: run ./build first (not as root)" >&2; exit 1; }; \
	done

install: built
	@for file in $(ALL); do $(INSTALL) -d "$(DESTDIR)$$(dirname "$$file")" || exit 1; done
	$(INSTALL) -m 755 out/bin/ruzkemp "$(DESTDIR)$(TOOL)"
	$(INSTALL) -m 644 out/lib/libruzkemp.a "$(DESTDIR)$(LIBRARY)"
	$(INSTALL) -m 644 out/lib/libruzkemp.kit "$(DESTDIR)$(KIT)"
	$(INSTALL) -m 644 out/include/ruzkemp.h "$(DESTDIR)$(HEADER)"
	$(INSTALL) -m 644 out/share/man/man1/ruzkemp.1 "$(DESTDIR)$(MANUAL)"
	$(INSTALL) -m 644 out/share/bash-completion/completions/ruzkemp "$(DESTDIR)$(BASH)"
	$(INSTALL) -m 644 out/share/zsh/site-functions/_ruzkemp "$(DESTDIR)$(ZSH)"
	$(INSTALL) -m 644 out/share/fish/vendor_completions.d/ruzkemp.fish "$(DESTDIR)$(FISH)"
	$(INSTALL) -m 644 $(addprefix out/share/doc/ruzkemp/,$(PAGES)) "$(DESTDIR)$(PAGES_DIR)"
	sed -e 's|^prefix=.*|prefix=$(PREFIX)|' -e 's|^libdir=.*|libdir=$(call below,$(LIBDIR))|' \
		-e 's|^includedir=.*|includedir=$(call below,$(INCLUDEDIR))|' out/lib/pkgconfig/ruzkemp.pc > "$(DESTDIR)$(PC)"
	chmod 644 "$(DESTDIR)$(PC)"

# The folders stay: others may use them.
uninstall:
	@for file in $(ALL); do rm -f "$(DESTDIR)$$file" || exit 1; done
	@echo "removed from $(DESTDIR)$(PREFIX): $(notdir $(ALL))"

.PHONY: all built install uninstall
