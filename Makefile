# Builds opuspack; installs program and manual page below PREFIX, or removes them.
PREFIX = /usr/local
bin = $(DESTDIR)$(PREFIX)/bin
man = $(DESTDIR)$(PREFIX)/share/man/man1

build:
	@./opuspack make --count 0

install: build
	install -d "$(bin)" "$(man)"
	install -m 755 crates/opuspack/out/opuspack "$(bin)/opuspack"
	install -m 644 docs/opuspack.1 "$(man)/opuspack.1"

uninstall:
	rm -f "$(bin)/opuspack" "$(man)/opuspack.1"

.PHONY: build install uninstall
