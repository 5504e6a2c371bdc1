# The whole repository: `make help` lists what there is. CC, CFLAGS, CPPFLAGS, LDFLAGS, PREFIX, DESTDIR and TARGET go to shell/ and file/.
MAKEFLAGS += --no-print-directory
include target.mk
# Tests call make with words of their own.
ALONE = env -u MAKEFLAGS -u MFLAGS -u MAKELEVEL -u CC -u CFLAGS -u CPPFLAGS -u LDFLAGS -u PREFIX -u DESTDIR

all: needs
	@$(MAKE) -s -C shell library
	@$(MAKE) -s -C file
	@$(MAKE) -s -C shell
	@echo "built: $(BUILD)/shell/catalogue, $(BUILD)/file/libcatalogue.a and libcatalogue.so"

help:
	@echo "make            looks for the tools, proves and builds the library, builds the program; the first time some minutes"
	@echo "make demo       the same, then the program on a table of a hundred codes, step by step, in target/demo"
	@echo "make wasm       library, judge and film as the WebAssembly module of the lesson's page: target/wasm/live.wasm"
	@echo "make check      tests of what is built, a part, in under two minutes"
	@echo "make test       every test of what is built, but those that want a browser, spin, a spreadsheet, a database or a virtual machine"
	@echo "make gate       .ci/run: every proof from nothing, every must-fail edit, every test"
	@echo "make bench      bench/run: the times of searches and changes"
	@echo "make install    program, libraries, headers, manual pages, completion, Python module (PREFIX=/usr/local, DESTDIR=)"
	@echo "make uninstall  removes what install put there"
	@echo "                TARGET=aarch64 with make, make install: for 64-bit ARM, in target/aarch64 (TARGET=x86_64: for x86-64)"
	@echo "make clean      removes target/, and crates/*/out with the proofs' results"

needs:
	@.ci/needs build $(TARGET)

# A program for another processor does not run here.
own:
	@[ $(TARGET) = $(MACHINE) ] || { echo "TARGET=$(TARGET) is for make, make install and make uninstall; tests/arm/run tries it" >&2; exit 1; }

demo: own all
	@shell/demo

check: own all
	@.ci/needs test
	@$(ALONE) tests/all calls front python 'tree vectors writing check'

test: own all
	@.ci/needs test
	@$(ALONE) tests/all

wasm: needs
	@wasm/build --needs
	@$(MAKE) -s -C shell module
	@ls -l target/wasm/live.wasm

gate:
	@$(ALONE) .ci/run

bench: own all
	@$(ALONE) bench/run

# These look for no tools: what is built is installed, also by a user who has no rt on the path.
install uninstall:
	@$(MAKE) -s -C shell $@

clean:
	rm -rf target crates/*/out

.PHONY: all bench check clean demo gate help install needs own test uninstall wasm
