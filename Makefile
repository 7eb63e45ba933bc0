# Installs `saber` with its tools, man pages, completion, documents and examples. Nothing is built: the program is the one
# of release/saber.
#   make install [PREFIX=/usr/local] [DESTDIR=]     make uninstall [PREFIX=..]
#   make dist                                       the tarball       (in a clone)
#   make deb                                        a Debian package  (in a clone)
PREFIX = /usr/local
DESTDIR =
PROGRAM = release/saber
OUT = dist
# the documents for users
PAGES = COMMANDS LANGUAGE LOADING VIOLATIONS TOUR EDITORS STATUS

ROOT = $(DESTDIR)$(PREFIX)
SHARE = $(ROOT)/share/saber
DOCS = $(ROOT)/share/doc/saber
MANUAL = $(ROOT)/share/man/man1
WORDS = $(ROOT)/share/bash-completion/completions

all:
	@echo "nothing is built: 'make install' installs $(PROGRAM)"

install:
	install -d $(ROOT)/bin $(SHARE)/release $(DOCS) $(MANUAL) $(WORDS)
	install -m 755 $(PROGRAM) $(ROOT)/bin/saber
	ln -sf ../../../bin/saber $(SHARE)/release/saber
	install -m 644 completion/saber.bash $(WORDS)/saber
	for page in docs/*.1 docs/man/*.1; do \
	    [ ! -f $$page ] || install -m 644 $$page $(MANUAL)/$$(basename $$page | tr A-Z a-z); done
	install -m 644 README.md CHANGELOG.md LICENSE $(DOCS)
	for page in $(PAGES); do [ ! -f docs/$$page.md ] || install -m 644 docs/$$page.md $(DOCS); done
	cp -R examples $(DOCS)
	[ ! -d tools ] || cp -R tools $(SHARE)
	for tool in tools/saber-*; do [ ! -x $$tool ] || ln -sf ../share/saber/$$tool $(ROOT)/bin; done
	find $(SHARE) $(DOCS) \( -name __pycache__ -o -name '*.o' \) -prune -exec rm -rf {} +

uninstall:
	rm -rf $(ROOT)/bin/saber $(ROOT)/bin/saber-* $(SHARE) $(DOCS) $(MANUAL)/saber*.1 $(WORDS)/saber

dist:
	mkdir -p $(OUT)
	release/dist.py $(PROGRAM) $(OUT)

deb: dist
	release/deb.sh $(OUT)

clean:
	rm -rf $(OUT)

.PHONY: all install uninstall dist deb clean
