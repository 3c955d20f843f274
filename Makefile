# Calls what stands beside it, from any folder: make -C FOLDER.
#: make             proves and builds the programs nkrun and nktrace; the first time it takes long, and says how far it is
#: make try         a first answer on the sample image in about a minute, NOT PROVED
#: make check       the gate: every proof, must-fail edit, test and program
#: make install     the built programs, outer/, tools/ and the manual page, to PREFIX (/usr/local) below DESTDIR
#: make uninstall   removes these again
#: make help        shows this
PREFIX = /usr/local
BIN = $(DESTDIR)$(PREFIX)/bin
SHARE = $(DESTDIR)$(PREFIX)/share/nkrun
MANUAL = $(DESTDIR)$(PREFIX)/share/man/man1

.PHONY: all try check install uninstall help

all:
	@front/build nkrun nktrace

try:
	@./nkrun try scan examples/images/outer.elf

check:
	.ci/run

# It builds nothing, and says so where a program isn't built. outer/build looks for nkrun in the folder above its own.
install:
	@front/build --no nkrun nktrace
	mkdir -p "$(BIN)" "$(SHARE)" "$(MANUAL)"
	install -m 755 crates/nkrun/out/nkrun crates/nktrace/out/nktrace "$(BIN)"
	cp -R outer tools "$(SHARE)"
	cd "$(SHARE)" && rm -rf outer/try_build.sh tools/*_test tools/explain_pictures tools/__pycache__
	ln -sf ../../bin/nkrun "$(SHARE)/nkrun"
	front/manual >"$(MANUAL)/nkrun.1"

uninstall:
	rm -rf "$(SHARE)"
	rm -f "$(BIN)/nkrun" "$(BIN)/nktrace" "$(MANUAL)/nkrun.1"

help:
	@sed -n 's/^#: //p' Makefile
