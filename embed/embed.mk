# The library for other languages; the Makefile includes this file.
# make embed                  proves and builds the library into build/x86_64/: archives, headers and arena
# make embed TARGET=aarch64   the same for that processor, into build/aarch64/
# make check-embed            builds and runs what lies in embed/ and examples/embed/, for both processors, or for TARGET alone
# make python                 build/libr2u2.so, which embed/python/r2u2.py and tools/budget call
# make wheel                   a wheel for pip, of the Python module and the shared object
# make deb                    a Debian package of all that `make install` installs
#
# LIBRARY=FILE takes an archive that was built before, of TARGET, in the place of proving and building one.

ifeq ($(TARGET)$(LIBRARY),)
TARGETS = x86_64 aarch64
endif
TARGET ?= x86_64
EMBED = build/$(TARGET)
TRIES = $(EMBED)/tries
GRANT = examples/embed/grant.bin
EXPECTED = examples/embed/grant.expected
WARNED = -std=c11 -Wall -Wextra -Iembed/include
ARENA = embed/src/arena.c
HEADERS = embed/include/r2u2.h embed/include/r2u2_port.h embed/include/r2u2_checked.h embed/include/r2u2.hpp
SOURCES = embed/src/arena.c embed/src/memory.c embed/src/heap.c

ifeq ($(TARGET),x86_64)
STRICT = -fsanitize=address,undefined -fno-sanitize-recover=all -g
TARGET_CC = $(CC)
TARGET_LINK = $(CC)
TARGET_AR = $(AR)
TARGET_OBJCOPY = objcopy
TARGET_NM = nm
TARGET_READELF = readelf
else
RT_TARGET = --target $(TARGET)-unknown-linux-gnu
TARGET_LINK = $(TARGET)-linux-gnu-gcc
TARGET_CC = $(TARGET_LINK) -static
TARGET_AR = $(TARGET)-linux-gnu-ar
TARGET_OBJCOPY = $(TARGET)-linux-gnu-objcopy
TARGET_NM = $(TARGET)-linux-gnu-nm
TARGET_READELF = $(TARGET)-linux-gnu-readelf
RUN = qemu-$(TARGET)
endif

# The kit's names of the allocator, and ours.
PREFIXED = $(foreach name,alloc realloc dealloc,--redefine-sym rattle_$(name)=r2u2_$(name))

.PHONY: embed check-embed measure-stack python wheel built-embed install-embed uninstall-embed deb
.PHONY: $(addprefix check-,installed misra symbols misuse arena bytes flight bare grants stack frameworks frameworks-cpp cpp rust python)

embed:
	@mkdir -p $(EMBED)
ifdef LIBRARY
	$(TARGET_OBJCOPY) $(PREFIXED) $(LIBRARY) $(EMBED)/libr2u2.a
else
	cd crates/r2u2_c && rt lib $(RT_TARGET) > ../../$(EMBED)/lib.log 2>&1 || { cat ../../$(EMBED)/lib.log; exit 1; }
	$(TARGET_OBJCOPY) $(PREFIXED) crates/r2u2_c/out/libr2u2_c.a $(EMBED)/libr2u2.a
endif
	$(TARGET_CC) $(WARNED) -O2 -fPIC -c embed/src/heap.c -o $(EMBED)/heap.o
	rm -f $(EMBED)/libr2u2_heap.a
	$(TARGET_AR) rcs $(EMBED)/libr2u2_heap.a $(EMBED)/heap.o
	$(TARGET_CC) $(WARNED) -O2 -fPIC -c $(ARENA) -o $(EMBED)/arena.o
	rm -f $(EMBED)/libr2u2_arena.a
	$(TARGET_AR) rcs $(EMBED)/libr2u2_arena.a $(EMBED)/arena.o
	cp $(HEADERS) $(SOURCES) $(EMBED)

$(EMBED)/libr2u2.a:
	$(MAKE) embed

# An installation takes the library that is built.
built: built-embed

built-embed:
	@[ -f $(EMBED)/libr2u2.a ] || { echo 'install: no $(EMBED)/libr2u2.a: "make embed" proves and builds the library, in some 20 minutes' >&2; exit 1; }

TRIED = check-symbols check-misuse check-arena check-bytes check-flight check-stack check-grants check-frameworks

ifdef TARGETS
check-embed:
	@for target in $(TARGETS); do $(MAKE) check-embed TARGET=$$target || exit; done
else ifeq ($(TARGET),x86_64)
check-embed: embed check-misra $(TRIED) check-frameworks-cpp check-cpp check-rust check-python check-installed
	@echo 'check-embed: all passed for $(TARGET)'
else
check-embed:
	@if command -v $(TARGET_LINK) > /dev/null && command -v $(RUN) > /dev/null; then \
	  $(MAKE) embed $(TRIED) check-bare && echo 'check-embed: all passed for $(TARGET)'; \
	else echo 'check-embed: no $(TARGET_LINK) or no $(RUN), so $(TARGET) is passed over'; fi
endif

$(TRIES):
	@mkdir -p $@

# The library asks for these names alone, defines none without its prefix, has no data that is written, and links at any address.
ASKED = memcpy memmove memset r2u2_alloc r2u2_dealloc r2u2_realloc

check-symbols: | $(TRIES)
	$(TARGET_NM) -u $(EMBED)/libr2u2.a | awk '$$1 == "U" { print $$2 }' | sort -u > $(TRIES)/symbols
	printf '%s\n' $(ASKED) | cmp - $(TRIES)/symbols
	$(TARGET_NM) -g --defined-only $(EMBED)/libr2u2*.a | awk 'NF == 3 && $$3 !~ /^r2u2_/ { print; bad = 1 } END { exit bad }'
	$(TARGET_READELF) -SW $(EMBED)/libr2u2.a | sed 's/^ *\[ *[0-9]*\] *//' > $(TRIES)/sections
	awk '$$7 ~ /W/ && $$5 !~ /^0*$$/ && $$1 !~ /^\.data\.rel\.ro/ { print; bad = 1 } END { exit bad }' $(TRIES)/sections
	$(TARGET_LINK) -shared -nostdlib -Wl,-z,text -Wl,--whole-archive $(EMBED)/libr2u2.a -o $(TRIES)/anywhere.so

# What flies keeps the required rules of MISRA C:2012, where there is cppcheck.
check-misra:
	embed/tests/misra $(SOURCES) $(filter %.h,$(HEADERS))

check-misuse: | $(TRIES)
	$(TARGET_CC) $(WARNED) -O1 $(STRICT) -o $(TRIES)/misuse embed/tests/misuse.c $(EMBED)/libr2u2.a -lpthread
	@$(RUN) $(TRIES)/misuse $(GRANT) > $(TRIES)/misuse.out; status=$$?; cat $(TRIES)/misuse.out; exit $$status

check-arena: | $(TRIES)
	$(TARGET_CC) $(WARNED) -O1 $(STRICT) -o $(TRIES)/arena embed/tests/arena_test.c $(ARENA) $(EMBED)/libr2u2.a
	$(RUN) $(TRIES)/arena $(GRANT)
	@if [ -z '$(RUN)' ] && echo 'int main(void) { return 0; }' | $(TARGET_CC) -m32 -x c - -o $(TRIES)/arena32 2> /dev/null; then \
	  $(TARGET_CC) -m32 $(WARNED) -O1 -DWITHOUT_LIBRARY -o $(TRIES)/arena32 embed/tests/arena_test.c $(ARENA) && $(TRIES)/arena32; \
	else echo 'check-embed: no 32-bit library of C, so the arena on 32 bits is passed over'; fi

check-bytes: | $(TRIES)
	$(TARGET_CC) $(WARNED) -O1 -o $(TRIES)/bytes embed/tests/bytes.c $(EMBED)/libr2u2.a
	$(RUN) $(TRIES)/bytes $(GRANT)
	@if command -v python3 > /dev/null; then programs=$$(embed/tests/programs $(TRIES)/programs) && $(RUN) $(TRIES)/bytes $$programs; fi

# The part that flies, linked as one object with all that it needs, asks for these names and no others; and the map of the
# whole program has no malloc.
check-flight: | $(TRIES)
	embed/constant grant_program $(GRANT) > $(TRIES)/grant_program.h
	$(TARGET_CC) $(WARNED) -I$(TRIES) -O2 -ffreestanding -nostdlib -r -o $(TRIES)/flight.o embed/tests/flight/flight.c $(ARENA) $(EMBED)/libr2u2.a -lgcc
	$(TARGET_NM) -u $(TRIES)/flight.o | awk 'NF { print $$2 }' | sort > $(TRIES)/flight.asks
	printf '%s\n' memcpy memmove memset | cmp - $(TRIES)/flight.asks
	$(TARGET_CC) $(WARNED) -O2 -ffreestanding -fno-builtin -nostdlib -r -o $(TRIES)/alone.o embed/src/memory.c $(TRIES)/flight.o
	! $(TARGET_NM) -u $(TRIES)/alone.o | grep .
	$(TARGET_CC) $(WARNED) -Iembed/tests/flight -O2 $(if $(RUN),,-Wl$(comma)-Map=$(TRIES)/flight.map) -o $(TRIES)/flight embed/tests/flight/ground.c $(TRIES)/flight.o
	@[ -n '$(RUN)' ] || { test -s $(TRIES)/flight.map && ! grep -wE 'malloc|calloc|realloc|free|printf' $(TRIES)/flight.map; }
	$(if $(RUN),$(RUN),env -i sh -c 'ulimit -s 64; exec "$$0"') $(TRIES)/flight > $(TRIES)/flight.out
	cmp $(TRIES)/flight.out $(EXPECTED)

comma = ,

check-stack: | $(TRIES)
	$(TARGET_CC) $(WARNED) -O2 $(if $(RUN),,-Wl$(comma)-z$(comma)now) -o $(TRIES)/stack embed/tests/stack.c $(EMBED)/libr2u2.a $(EMBED)/libr2u2_heap.a
	$(RUN) $(TRIES)/stack $(GRANT)

# The same over all programs of examples/ and bench/, for the table of docs/reference/c-interface.md.
measure-stack: check-stack
	$(RUN) $(TRIES)/stack $(GRANT) $$(embed/tests/programs $(TRIES)/programs)

check-grants:
	$(MAKE) -C examples/embed clean check CC='$(TARGET_CC)' RUN='$(RUN)' LIBRARY=$(abspath $(EMBED)/libr2u2.a) HEAP=$(abspath $(EMBED)/libr2u2_heap.a)
	@if command -v python3 > /dev/null; then embed/tests/workloads $(RUN) examples/embed/grants; fi

# The part that flies without an operating system and a C library, on a machine that qemu-system emulates. Some versions
# of it print what is written by semihosting on the error output.
BARE = $(WARNED) -I$(TRIES) -Iembed/tests/flight -O2 -ffreestanding -fno-builtin -nostdlib -static
BARE_LINK = -T embed/tests/bare/bare.ld -Wl,--build-id=none,--no-warn-rwx-segments

check-bare: | $(TRIES)
	@if command -v qemu-system-$(TARGET) > /dev/null; then set -e; \
	  $(TARGET_LINK) $(BARE) $(BARE_LINK) -o $(TRIES)/bare embed/tests/bare/start.S embed/tests/bare/ground.c embed/tests/flight/flight.c \
	    $(ARENA) embed/src/memory.c $(EMBED)/libr2u2.a -lgcc; \
	  timeout 60 qemu-system-$(TARGET) -M virt -cpu cortex-a53 -nographic -nic none -semihosting -kernel $(TRIES)/bare \
	    < /dev/null 2>&1 | tr -d '\r' | cmp - $(EXPECTED); \
	else echo 'check-embed: no qemu-system-$(TARGET), so bare $(TARGET) is passed over'; fi

# The examples for flight frameworks, over stand-ins for the calls that they make. level.bin is the program of
# `INPUT level: int; FTSPEC high: level < 5;`.
FRAMEWORKS = $(WARNED) -D_POSIX_C_SOURCE=200809L -Iexamples/embed/stubs -I$(TRIES)
STATIC = $(ARENA) $(EMBED)/libr2u2.a

check-frameworks: | $(TRIES)
	embed/constant grant_program $(GRANT) > $(TRIES)/grant_program.h
	$(TARGET_CC) $(FRAMEWORKS) -o $(TRIES)/cfs examples/embed/cfs/watch_app.c $(STATIC)
	$(TARGET_CC) $(FRAMEWORKS) -o $(TRIES)/freertos examples/embed/freertos/watch_task.c $(STATIC)
	$(TARGET_CC) $(FRAMEWORKS) -o $(TRIES)/zephyr examples/embed/zephyr/watch_thread.c $(STATIC)
	@set -e; for name in cfs freertos zephyr; do $(RUN) $(TRIES)/$$name | cmp - examples/embed/$$name/expected; done

FRAMEWORKS_CPP = -Wall -Wextra -Iembed/include -Iexamples/embed/stubs -I$(TRIES)
HEAP = $(EMBED)/libr2u2.a $(EMBED)/libr2u2_heap.a

check-frameworks-cpp: check-frameworks
	@if command -v $(firstword $(CXX)) > /dev/null; then set -e; \
	  $(CXX) -std=c++14 $(FRAMEWORKS_CPP) -o $(TRIES)/fprime examples/embed/stubs/fprime_main.cpp examples/embed/fprime/Watch.cpp $(HEAP); \
	  $(CXX) -std=c++17 $(FRAMEWORKS_CPP) -o $(TRIES)/ros2 examples/embed/ros2/watch_node.cpp $(HEAP); \
	  $(TRIES)/fprime | cmp - examples/embed/fprime/expected; \
	  $(TRIES)/ros2 $(GRANT) | cmp - examples/embed/ros2/expected; \
	  $(TRIES)/ros2 examples/embed/level.bin | cmp - examples/embed/ros2/expected_level; \
	  ! $(TRIES)/ros2 examples/embed/grants.c 2> $(TRIES)/ros2.log && grep -q 'no monitor: magic' $(TRIES)/ros2.log; \
	else echo 'check-embed: no compiler of C++, so the examples for F Prime and ROS 2 are passed over'; fi

STRICT_CPP = -std=c++11 -Wall -Wextra -Wshadow -Wold-style-cast -Wconversion -Werror

check-cpp: | $(TRIES)
	@if command -v $(firstword $(CXX)) > /dev/null; then set -e; \
	  $(CXX) $(STRICT_CPP) $(STRICT) -Iembed/include -o $(TRIES)/grants_cpp embed/tests/grants.cpp $(EMBED)/libr2u2.a $(EMBED)/libr2u2_heap.a; \
	  $(TRIES)/grants_cpp $(GRANT) > $(TRIES)/cpp.out; cmp $(TRIES)/cpp.out $(EXPECTED); \
	  for header in $(notdir $(HEADERS)); do echo "#include \"$$header\"" | \
	    $(CXX) $(STRICT_CPP) -fno-exceptions -fno-rtti -Iembed/include -fsyntax-only -x c++ -; done; \
	else echo 'check-embed: no compiler of C++, so its example is passed over'; fi

CARGO = R2U2_LIBRARIES=$(abspath $(EMBED)) R2U2_PROGRAM=$(abspath $(GRANT)) cargo
CRATE = --quiet --offline --manifest-path embed/rust/Cargo.toml --target-dir $(TRIES)/rust

check-rust: | $(TRIES)
	@if command -v cargo > /dev/null; then set -e; \
	  for features in '' arena; do \
	    $(CARGO) run $(CRATE) --features "$$features" -- $(GRANT) > $(TRIES)/rust.out; \
	    cmp $(TRIES)/rust.out $(EXPECTED); \
	    $(CARGO) test $(CRATE) --features "$$features" > $(TRIES)/rust.log 2>&1 || { cat $(TRIES)/rust.log; exit 1; }; \
	    if cargo clippy --version > /dev/null 2>&1; then \
	      $(CARGO) clippy $(CRATE) --features "$$features" --lib -- -D warnings -W clippy::pedantic; fi; \
	  done; \
	else echo 'check-embed: no cargo, so the example in Rust is passed over'; fi

SHARED_OBJECT = build/libr2u2.so

python: $(SHARED_OBJECT)

$(SHARED_OBJECT): $(EMBED)/libr2u2.a
	$(CC) -shared -Wl,--whole-archive $(EMBED)/libr2u2.a -Wl,--no-whole-archive $(EMBED)/libr2u2_heap.a -o $@

# For pip: the module with its library, by setuptools. The same files give the same wheel.
WHEEL_PYTHON = $(firstword $(foreach python,python3 /usr/bin/python3,$(shell $(python) -c 'import setuptools, wheel' 2>/dev/null && echo $(python))))
WHEEL_INTO = build

wheel: python
	@[ -n '$(WHEEL_PYTHON)' ] || { echo 'wheel: no setuptools: apt-get install python3-setuptools python3-wheel' >&2; exit 1; }
	@rm -rf build/wheel && cp -R embed/python build/wheel && cp $(SHARED_OBJECT) build/wheel/r2u2
	@sed 's/"0.0.0"/"$(VERSION)"/' embed/python/pyproject.toml > build/wheel/pyproject.toml
	@cd build/wheel && SOURCE_DATE_EPOCH=1577836800 $(WHEEL_PYTHON) -c \
	  "import setuptools.build_meta as it; print('$(WHEEL_INTO)/' + it.build_wheel('$(abspath $(WHEEL_INTO))'))" > build.log 2>&1 \
	  || { cat build.log; exit 1; }
	@tail -n 1 build/wheel/build.log

check-python: python | $(TRIES)
	@if command -v python3 > /dev/null; then set -e; export PYTHONDONTWRITEBYTECODE=1; \
	  PYTHONPATH=embed/python R2U2_LIBRARY=$(abspath build/libr2u2.so) python3 embed/tests/grants.py $(GRANT) > $(TRIES)/python.out; \
	  cmp $(TRIES)/python.out $(EXPECTED); \
	  python=$$(for it in python3 /usr/bin/python3; do if $$it -c 'import numpy' 2> /dev/null; then echo $$it; break; fi; done); \
	  R2U2_LIBRARY=$(abspath build/libr2u2.so) $${python:-python3} embed/tests/test_module.py 2> $(TRIES)/module.log || { cat $(TRIES)/module.log; exit 1; }; \
	  tail -n 1 $(TRIES)/module.log; \
	  if [ -n '$(WHEEL_PYTHON)' ]; then \
	    rm -rf $(TRIES)/wheel && mkdir $(TRIES)/wheel; \
	    $(MAKE) -s wheel WHEEL_INTO=$(TRIES)/wheel; \
	    (cd $(TRIES)/wheel && python3 -m zipfile -e *-py3-none-linux_*.whl .); \
	    PYTHONPATH=$(TRIES)/wheel python3 -c 'import r2u2; assert r2u2.version() > 0'; \
	  else echo 'check-embed: no setuptools, so the wheel is passed over'; fi; \
	else echo 'check-embed: no python3, so the example in Python is passed over'; fi

INSTALLED_LIBRARIES = libr2u2.a libr2u2_heap.a libr2u2_arena.a
MANUALS = r2u2 r2u2_arena r2u2_wrappers
INSTALLED_HEADERS = embed/include/r2u2.h embed/include/r2u2_port.h embed/include/r2u2_checked.h embed/include/r2u2.hpp
INSTALLED_SOURCES = $(SOURCES) embed/constant examples/embed/grants.c
INSTALLED_MODULE = embed/python/r2u2/__init__.py embed/python/r2u2/py.typed

install: install-embed
uninstall: uninstall-embed

# The shared object is in a separate folder, so that -lr2u2 finds the archive. It is for the processor of the tools.
ifeq ($(TARGET),x86_64)
INSTALLED_OBJECT = $(SHARED_OBJECT)
endif

install-embed: built-embed $(INSTALLED_OBJECT)
	install -d $(INTO)/lib/pkgconfig $(INTO)/lib/r2u2 $(INTO)/include $(INTO)/share/man/man3 $(INTO)/share/r2u2/embed
	install -m 644 $(INSTALLED_LIBRARIES:%=$(EMBED)/%) $(INTO)/lib
ifneq ($(INSTALLED_OBJECT),)
	install -m 644 $(INSTALLED_OBJECT) $(INTO)/lib/r2u2/libr2u2.so
endif
	install -m 644 $(INSTALLED_HEADERS) $(INTO)/include
	install -m 644 $(INSTALLED_SOURCES) $(INTO)/share/r2u2/embed
	chmod 755 $(INTO)/share/r2u2/embed/constant
	install -d $(INTO)/share/r2u2/embed/r2u2
	install -m 644 $(INSTALLED_MODULE) $(INTO)/share/r2u2/embed/r2u2
	install -d $(INTO)/share/r2u2/embed/rust/src
	install -m 644 embed/rust/build.rs $(INTO)/share/r2u2/embed/rust
	install -m 644 embed/rust/src/lib.rs embed/rust/src/arena.rs embed/rust/src/main.rs $(INTO)/share/r2u2/embed/rust/src
	sed 's/"0.0.0"/"$(VERSION)"/' embed/rust/Cargo.toml > $(INTO)/share/r2u2/embed/rust/Cargo.toml
	install -m 644 $(MANUALS:%=docs/man/%.3) $(INTO)/share/man/man3
	sed 's|@PREFIX@|$(PREFIX)|; s|@VERSION@|$(VERSION)|' embed/r2u2.pc.in > $(INTO)/lib/pkgconfig/r2u2.pc

uninstall-embed:
	rm -f $(INSTALLED_LIBRARIES:%=$(INTO)/lib/%) $(addprefix $(INTO)/include/,$(notdir $(INSTALLED_HEADERS)))
	rm -f $(MANUALS:%=$(INTO)/share/man/man3/%.3) $(INTO)/lib/pkgconfig/r2u2.pc
	rm -rf $(INTO)/share/r2u2/embed $(INTO)/lib/r2u2

# The example builds and runs outside the repository, by what was installed alone.
check-installed: | $(TRIES)
	rm -rf $(TRIES)/root
	$(MAKE) install-embed DESTDIR= PREFIX=$(abspath $(TRIES)/root)
	@if command -v pkg-config > /dev/null; then set -e; cd $(TRIES)/root; \
	  export PKG_CONFIG_PATH=$$PWD/lib/pkgconfig; \
	  $(CC) share/r2u2/embed/grants.c $$(pkg-config --cflags --libs r2u2) -o grants; \
	  ./grants $(abspath $(GRANT)) $(abspath examples/grant.csv) | cmp - $(abspath $(EXPECTED)); \
	else echo 'check-embed: no pkg-config, so it is passed over'; fi
	$(MAKE) uninstall-embed DESTDIR= PREFIX=$(abspath $(TRIES)/root)
	@rm -f $(TRIES)/root/grants; ! find $(TRIES)/root -type f | grep .

DEB = build/r2u2_$(VERSION)_$(shell dpkg --print-architecture 2>/dev/null)

deb:
	rm -rf $(DEB)
	$(MAKE) install DESTDIR=$(abspath $(DEB)) PREFIX=/usr
	mkdir -p $(DEB)/DEBIAN
	sed 's|@VERSION@|$(VERSION)|; s|@PROCESSOR@|$(shell dpkg --print-architecture)|' embed/control.in > $(DEB)/DEBIAN/control
	dpkg-deb --root-owner-group --build $(DEB) > /dev/null
	rm -rf $(DEB)
	@echo $(DEB).deb
