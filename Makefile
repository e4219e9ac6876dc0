# Puts the programs and what belongs to them in place: make install PREFIX=/usr/local
# On first use the programs are proved and built before, which takes two to three hours.
PREFIX = /usr/local

programs = crates/idlc/out/idlc crates/idltool/out/idltool
bin = $(DESTDIR)$(PREFIX)/bin
share = $(DESTDIR)$(PREFIX)/share
editors = lib/editors/github lib/editors/nvim lib/editors/vim lib/editors/vscode

all:
	./idlc --version
	./idltool --version

install: all
	mkdir -p $(bin) $(share)/man/man1 $(share)/bash-completion/completions $(share)/idl/editors
	install -m 755 $(programs) $(bin)
	lib/man crates/idlc/out/idlc idlc >$(share)/man/man1/idlc.1
	lib/man crates/idltool/out/idltool idltool explain deps check json diff lsp >$(share)/man/man1/idltool.1
	install -m 644 lib/completion.bash $(share)/bash-completion/completions/idlc
	ln -sf idlc $(share)/bash-completion/completions/idltool
	install -m 644 lib/orb.idl lib/rows.jq $(share)/idl
	cp -R $(editors) $(share)/idl/editors

uninstall:
	rm -f $(bin)/idlc $(bin)/idltool $(share)/man/man1/idlc.1 $(share)/man/man1/idltool.1
	rm -f $(share)/bash-completion/completions/idlc $(share)/bash-completion/completions/idltool $(share)/idl/orb.idl $(share)/idl/rows.jq
	rm -rf $(share)/idl/editors

.PHONY: all install uninstall
