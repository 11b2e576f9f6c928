# Builds the proved program and the library for C, tests them, counts their instructions, installs them under PREFIX, the program
# by the name NAME, and makes packages of them. STRIP=1 leaves the names of functions out of what is installed, and STATIC=1
# installs the program that holds its C library.
#
# What `make help` prints:
## make                proves and builds the program (15 to 20 minutes at first)
## make lib            proves and builds the library for C (after make this takes half its time)
## make static         the program with the C library inside
## make install        installs the program, its manual page and completions: PREFIX=/usr/local NAME=qrencode
## make install-lib    installs what make lib built
## make uninstall      removes what make install installed, by the same PREFIX and NAME
## make uninstall-lib  removes what make install-lib installed
## make wheel          the package for Python, in python/out
## make wheels         the packages for Python for all systems, and their sources, in python/out
## make wasm           the library as WebAssembly, in out/wasm (needs binaryen)
## make c              the library as one C file for other machines, in out/c, and one for little flash
## make everywhere     the library for Windows, musl and macOS, and the program for Windows, in out/everywhere
## make crate          the crate for Rust with this C file inside, in out/crate
## make npm            the package for JavaScript, in out/npm
## make page           the web page, in out/web
## make dist           archives and packages of all of them, in out/dist
## make test           runs the tests, and proves only what they are built of (20 minutes after make all lib)
## make check          the gate (45 to 75 minutes)
## make check-all      the gate, and beside it the wrong bodies in groups
## make check-each     tries each wrong body by itself
## make bench          counts instructions and memory
## make clean          removes what was built, the kept proofs too

VERSION := $(shell cat VERSION)
PREFIX = /usr/local
BINDIR = $(PREFIX)/bin
LIBDIR = $(PREFIX)/lib
INCLUDEDIR = $(PREFIX)/include
MANDIR = $(PREFIX)/share/man
BASHDIR = $(PREFIX)/share/bash-completion/completions
ZSHDIR = $(PREFIX)/share/zsh/site-functions
STRIP =
STATIC =

# The machine that is built for, and its processors: here all of its kind.
TARGET = x86_64-unknown-linux-gnu
ifeq ($(TARGET),x86_64-unknown-linux-gnu)
CPU = x86-64
CROSS =
KIND = $(CPU)
else ifeq ($(TARGET),aarch64-unknown-linux-gnu)
CPU = generic
CROSS = aarch64-linux-gnu-
KIND = aarch64-$(CPU)
else
$(error TARGET is x86_64-unknown-linux-gnu or aarch64-unknown-linux-gnu, and not $(TARGET))
endif

# The tools of the target, where the caller names no others.
tool = $(if $(filter default undefined,$(origin $(1))),$(eval $(1) = $(2)))
$(call tool,CC,$(if $(CROSS),$(CROSS)gcc,cc))
$(call tool,LD,$(CROSS)ld)
$(call tool,AR,$(CROSS)ar)
$(call tool,OBJCOPY,$(CROSS)objcopy)

NAME = qrencode
OUT = out/$(KIND)
PROGRAM = $(OUT)/qrencode
BINARY = $(DESTDIR)$(BINDIR)/$(NAME)
MANUAL = $(DESTDIR)$(MANDIR)/man1/$(NAME).1

LIBRARY = crates/qrproved
LIBRARY_FLAGS = --cpu $(CPU)
LIBRARY_OUT = $(if $(CROSS),$(OUT)/lib,$(LIBRARY)/out/lib)
SONAME = libqrproved.so.1
LIBRARIES = $(DESTDIR)$(LIBDIR)
INCLUDES = $(DESTDIR)$(INCLUDEDIR)
PYTHON = python3
WHEELS = python/out
DIST = out/dist

# Newer processors, for which the shared library is built once more: there the loader takes that one.
HWCAPS = $(if $(filter $(LIBRARY)/out/lib:x86-64,$(LIBRARY_OUT):$(CPU)),x86-64-v2)
HWCAPS_OUT = out/$(HWCAPS)/lib
HWCAPS_FOLDER = $(LIBRARIES)/glibc-hwcaps/$(HWCAPS)

# The C below what is proved: the kit's, or for its other targets ours.
KIT_C = $(shell dirname "$$(rt doc)")/c
GLUE = $(if $(CROSS),$(wildcard ports/*.c),$(KIT_C)/libos_c.a $(KIT_C)/liblibc_c.a)

# Not empty if the first file is missing or older than the sources of the second, a crate, or than one of the files after these.
is_old = $(shell top=. && . tools/current && is_current '$(1)' $(2) || echo old)$(if $(3),$(shell find $(3) -newer '$(1)' 2>&1))
library_is_old = $(shell test -e '$(1)/$(SONAME)' && test "$$(cat '$(1)/flags' 2>/dev/null)" = '$(2)' || echo flags)$(call is_old,$(1)/flags,qrproved,$(PORTS))
PORTS = $(if $(CROSS),$(wildcard ports/*.c))

# What is old of that which the goals want.
OF_MODULE = module wasm c everywhere wheels sdist crate npm page
wants = $(filter $(1),$(or $(MAKECMDGOALS),all))
OLD_PROGRAM := $(if $(call wants,all static install everywhere wheels bench),$(call is_old,$(PROGRAM),qrencode,$(PORTS)))
OLD_LIBRARY := $(if $(call wants,lib prove-lib $(OF_MODULE) bench),$(call library_is_old,$(LIBRARY_OUT),$(LIBRARY_FLAGS)))
OLD_HWCAPS := $(if $(HWCAPS),$(if $(call wants,lib $(OF_MODULE) bench),$(call library_is_old,$(HWCAPS_OUT),--cpu $(HWCAPS))))

all: $(if $(OLD_PROGRAM),$(if $(CROSS),cross,prove))

# One call proves the crates of the program and of the library, side by side.
TO_PROVE = $(if $(OLD_PROGRAM),$(if $(CROSS),,--program $(CPU))) $(if $(OLD_LIBRARY),--library '--target $(TARGET) $(LIBRARY_FLAGS)')
prove: need-rt
	$(if $(strip $(TO_PROVE)),tools/build $(TO_PROVE))

help:
	@sed -n 's/^## //p' '$(firstword $(MAKEFILE_LIST))'

# What proves needs the kit.
need-rt:
	@command -v rt >/dev/null 2>&1 || { echo "make: what is to be built, tested or packed needs the command 'rt' of the Rattle kit," \
	    "which is not here" >&2; exit 1; }

# Proves the program for another target. The kit has no linker for it, and so ends by an error; but it writes an object file,
# and only of a program that is proved.
cross: need-rt
	mkdir -p $(OUT)
	rm -f crates/qrencode/out/qrencode.o
	touch $(OUT)/start
	tools/build --below qrencode
	cd crates/qrencode && rt run --target $(TARGET) --cpu $(CPU) -- -h >"$(CURDIR)/$(OUT)/build.log" 2>&1 </dev/null || test -e out/qrencode.o
	cp crates/qrencode/out/qrencode.o $(OUT)/qrencode.o
	$(CC) -O2 -o $(OUT)/qrencode.new $(OUT)/qrencode.o $(GLUE)
	touch -r $(OUT)/start $(OUT)/qrencode.new
	mv $(OUT)/qrencode.new $(PROGRAM)

# The same program, linked with the C library's archive. The kit's own checks see the other one.
static: all
	$(CC) -O2 -static -o $(PROGRAM)-static $(OUT)/qrencode.o $(GLUE)

# The gate.
check: need-rt
	@tests/all

# The gate, and beside it the wrong bodies in groups.
check-all: need-rt
	@tests/all --all

# The gate without wrong bodies, and with proofs only of what the tests are built of.
test: need-rt
	@tests/all --test

# Each wrong body by itself, those of must-fail/ too.
check-each:
	@tests/wrong_bodies --each

# The manual page has NAME in its head and its examples; the lines of faults begin with qrencode under each name.
install: $(if $(STATIC),static,all)
	install -D -m 755 $(PROGRAM)$(if $(STATIC),-static) "$(BINARY)"
	$(if $(STRIP),$(OBJCOPY) --strip-all "$(BINARY)")
	mkdir -p "$$(dirname "$(MANUAL)")"
	sed -e "s/^\.Dt QRENCODE /.Dt $$(echo '$(NAME)' | tr '[:lower:]' '[:upper:]') /" -e 's/^\.Nm qrencode$$/.Nm $(NAME)/' \
	    -e 's/^\(\.Dl .*\)qrencode /\1$(NAME) /' docs/qrencode.1 >"$(MANUAL)"
	chmod 644 "$(MANUAL)"
	mkdir -p "$(DESTDIR)$(BASHDIR)" "$(DESTDIR)$(ZSHDIR)"
	sed 's/^\(complete .*\) qrencode$$/\1 $(NAME)/' completion/qrencode.bash >"$(DESTDIR)$(BASHDIR)/$(NAME)"
	sed '1s/qrencode/$(NAME)/' completion/_qrencode >"$(DESTDIR)$(ZSHDIR)/_$(NAME)"
	chmod 644 "$(DESTDIR)$(BASHDIR)/$(NAME)" "$(DESTDIR)$(ZSHDIR)/_$(NAME)"

uninstall:
	rm -f "$(BINARY)" "$(MANUAL)" "$(DESTDIR)$(BASHDIR)/$(NAME)" "$(DESTDIR)$(ZSHDIR)/_$(NAME)"

# Removes what was built, and with it the proofs that were kept: the next build takes as long as the first.
clean:
	rm -rf out python/out rust/qrproved/target crates/*/out

# What runs without the kit, with the commit and the kit that it is of. The tree has to have no changes since its commit.
dist: need-rt
	tools/dist "$(DIST)"

.PHONY: dist need-rt prove prove-hwcaps

# Builds the library, unless the last build was by the same flags and no source is newer than it.
lib: $(if $(OLD_LIBRARY),prove-lib) $(if $(OLD_HWCAPS),prove-hwcaps)

prove-hwcaps: $(if $(OLD_LIBRARY),prove-lib)
	$(MAKE) --no-print-directory prove-lib CPU=$(HWCAPS) LIBRARY_OUT=$(HWCAPS_OUT)

# Joins the proved crate with the glue for malloc, realloc and free. All names but those of the header become local, so that two
# such libraries do not clash in a program. The flags are as old as the proof's start: a source that was changed since then is newer.
prove-lib: prove
	mkdir -p "$(LIBRARY_OUT)"
	rm -f "$(LIBRARY_OUT)/flags"
	echo '$(LIBRARY_FLAGS)' >"$(LIBRARY_OUT)/flags.new"
	touch -r $(LIBRARY)/out/libqrproved.a "$(LIBRARY_OUT)/flags.new"
	cp $(LIBRARY)/out/libqrproved.a "$(LIBRARY_OUT)/proved.a"
ifdef CROSS
	$(CC) -O2 -fPIC -c -o "$(LIBRARY_OUT)/heap.pic.o" ports/heap.c
else
	cd "$(LIBRARY_OUT)" && $(AR) x "$(KIT_C)/liblibc_c.a" heap.pic.o
endif
	cd "$(LIBRARY_OUT)" && $(LD) -r -o joined.o --whole-archive proved.a --no-whole-archive heap.pic.o
	cd "$(LIBRARY_OUT)" && $(OBJCOPY) --wildcard --keep-global-symbol="qrproved_*" joined.o
	cd "$(LIBRARY_OUT)" && rm -f libqrproved.a && $(AR) rcsD libqrproved.a joined.o
	cd "$(LIBRARY_OUT)" && $(CC) -shared -o $(SONAME) -Wl,-soname,$(SONAME) -Wl,--no-undefined -Wl,-z,relro,-z,now \
	    -Wl,--whole-archive libqrproved.a -Wl,--no-whole-archive
	cd "$(LIBRARY_OUT)" && rm -f proved.a heap.pic.o joined.o && mv flags.new flags

# Installs what `make lib` built. The loader prefers the library of HWCAPS, so one that an earlier call installed there goes away
# if this call installs none.
has_flags = test "$$(cat '$(1)/flags' 2>/dev/null)" = '$(2)'
OLD_HWCAPS_COPY = $(if $(CROSS),,"$(LIBRARIES)/glibc-hwcaps/x86-64-v2/$(SONAME)")
install-lib:
	@$(call has_flags,$(LIBRARY_OUT),$(LIBRARY_FLAGS)) $(if $(HWCAPS),&& $(call has_flags,$(HWCAPS_OUT),--cpu $(HWCAPS))) || \
	    { echo "install-lib: the library is not built for $(KIND): run make lib, with the same CPU and TARGET" >&2; exit 1; }
	install -D -m 644 "$(LIBRARY_OUT)/libqrproved.a" "$(LIBRARIES)/libqrproved.a"
	install -D -m 644 "$(LIBRARY_OUT)/$(SONAME)" "$(LIBRARIES)/$(SONAME)"
	$(if $(STRIP),$(OBJCOPY) --strip-debug "$(LIBRARIES)/libqrproved.a")
	$(if $(STRIP),$(OBJCOPY) --strip-unneeded "$(LIBRARIES)/$(SONAME)")
	$(if $(HWCAPS),install -D -m 644 "$(HWCAPS_OUT)/$(SONAME)" "$(HWCAPS_FOLDER)/$(SONAME)")
	$(if $(HWCAPS),$(if $(STRIP),$(OBJCOPY) --strip-unneeded "$(HWCAPS_FOLDER)/$(SONAME)"))
	$(if $(HWCAPS)$(CROSS),,rm -f $(OLD_HWCAPS_COPY))
	ln -sf $(SONAME) "$(LIBRARIES)/libqrproved.so"
	install -D -m 644 include/qrproved.h "$(INCLUDES)/qrproved.h"
	mkdir -p "$(LIBRARIES)/pkgconfig"
	$(MAKE) -s --no-print-directory print-pc >"$(LIBRARIES)/pkgconfig/qrproved.pc"
	chmod 644 "$(LIBRARIES)/pkgconfig/qrproved.pc"
	@$(if $(DESTDIR),,PATH="$$PATH:/usr/sbin:/sbin"; ldconfig 2>/dev/null; \
	    ldconfig -p 2>/dev/null | grep -q "=> $(LIBDIR)/$(SONAME)$$" || echo "install-lib: programs find $(LIBDIR)/$(SONAME) after" \
	    "ldconfig, run by root, if the folder is one of its own, or if they are linked with -Wl$(comma)-rpath$(comma)$(LIBDIR)")

comma = ,

# The pkg-config file.
print-pc:
	@printf '%s\n' 'prefix=$(PREFIX)' 'libdir=$(subst $(PREFIX)/,$${prefix}/,$(LIBDIR))' \
	    'includedir=$(subst $(PREFIX)/,$${prefix}/,$(INCLUDEDIR))' '' 'Name: qrproved' \
	    'Description: QR Code symbols, by proved calls' 'Version: $(VERSION)' 'Libs: -L"$${libdir}" -lqrproved' \
	    'Cflags: -I"$${includedir}"'

uninstall-lib:
	rm -f "$(LIBRARIES)/libqrproved.a" "$(LIBRARIES)/$(SONAME)" "$(LIBRARIES)/libqrproved.so"
	rm -f "$(INCLUDES)/qrproved.h" "$(LIBRARIES)/pkgconfig/qrproved.pc" $(OLD_HWCAPS_COPY)

# What takes the library comes after `make lib`, if one call of make does both.
ifneq ($(filter lib,$(MAKECMDGOALS)),)
wheel install-lib: | lib
endif

# A wheel with the shared library that `make lib` built.
wheel:
	$(PYTHON) python/backend.py "$(LIBRARY_OUT)/$(SONAME)" "$(WHEELS)"

# The library's LLVM code, of which WebAssembly, C and the libraries for other systems are made.
MODULE = out/module/qrproved.ll
module_is_old = $(call is_old,$(MODULE),qrproved,ports/module)
module: $(if $(module_is_old),build-module)

build-module: lib
	ports/module qrproved $(MODULE)

# The library as WebAssembly, the package for JavaScript with it inside, and the page with both inside.
WASM = out/wasm/qrproved.wasm
wasm: $(if $(module_is_old)$(shell find $(MODULE) ports/wasm -newer $(WASM) 2>&1),build-wasm)

build-wasm: module
	ports/wasm/build $(MODULE) out/wasm

# The library as a C file, and in the form for little flash, with the header beside them.
C_FILE = out/c/qrproved.c
c: $(if $(module_is_old)$(shell find $(MODULE) ports/c include/qrproved.h -newer $(C_FILE) 2>&1),build-c)

build-c: module
	ports/c/build $(MODULE) out/c

# The library for other systems of 64 bits, and for Windows the program, of the program's LLVM code.
EVERYWHERE = out/everywhere
PROGRAM_MODULE = out/module/qrencode.ll
program_module_is_old = $(call is_old,$(PROGRAM_MODULE),qrencode,ports/module)
everywhere: $(if $(module_is_old)$(program_module_is_old)$(shell find $(MODULE) $(PROGRAM_MODULE) ports/everywhere -newer $(EVERYWHERE)/made 2>&1),build-everywhere)

build-everywhere: module $(if $(program_module_is_old),build-program-module)
	ports/everywhere/build $(MODULE) $(PROGRAM_MODULE) $(EVERYWHERE)

build-program-module: all
	ports/module qrencode $(PROGRAM_MODULE)

# The packages for Python for all systems, and the source distribution, which pip compiles where none of them fits.
wheels: everywhere sdist
	set -e; for library in $(EVERYWHERE)/*/libqrproved.* $(EVERYWHERE)/*/qrproved.dll; do $(PYTHON) python/backend.py $$library "$(WHEELS)"; done

sdist: c
	$(PYTHON) python/backend.py --sources $(C_FILE) "$(WHEELS)"

# The crate for Cargo with the C file inside.
CRATE = out/crate/qrproved
crate: c
	rm -rf $(CRATE)
	mkdir -p $(CRATE)/c
	cd rust/qrproved && cp -R Cargo.toml README.md build.rs src tests "$(CURDIR)/$(CRATE)"
	cp $(C_FILE) $(dir $(C_FILE))qrproved.h $(CRATE)/c

npm: wasm
	js/build $(WASM) out/npm

page: npm
	web/build out/npm/package out/web

bench: all lib
	bench/instructions
	bench/library
	bench/memory

.PHONY: all bench build-c build-everywhere build-module build-program-module build-wasm c check check-all check-each clean crate cross everywhere help \
    install install-lib lib module npm page print-pc prove-lib sdist static test uninstall uninstall-lib wasm wheel wheels
