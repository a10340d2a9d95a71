# What people type: `make run` shows the bench at work, `make test` passes every test and ends with the gate's own line.
#
# What is built for people goes to build/; what rt keeps of a crate goes to out/ in its folder.
PREFIX ?= /usr/local
DESTDIR ?=
CFLAGS ?= -O2 -Wall -Wextra -pedantic -std=c11
CALLS ?= 1000000
SOAK_CALLS ?= 50000000
BUILD := $(abspath build)
# The library, and the crate of the C interface, by whose name rt calls it.
LIBRARY := $(BUILD)/libmfrc531.a
INTERFACE := entry_in_place_c
export MFRC531_LIB_DIR := $(BUILD)
# Crates that tools/prove has proved at a time.
export RT_JOBS ?= 4

# What the archives are made of: every file of a crate that is proved.
SOURCES := crates.txt $(shell find crates \( -name must-fail -o -name out \) -prune -o -type f -print)

.PHONY: help needed run test proved check library tool install dist bench soak clean

help:
	@echo 'make run      prove and build the library, the tool and a first firmware, and show them at work'
	@echo 'make test     rt ci and every test; its last line is the verdict of rt ci'
	@echo 'make library  build/libmfrc531.a, for include/mfrc531.h'
	@echo 'make tool     build/mfrc531: profiles as people post them, and a chip to type at'
	@echo 'make install  library, header, pkg-config file, CMake package and programs under PREFIX (default /usr/local), as they are built'
	@echo 'make dist     an archive of all that, with the manual, for machines without the Rattle kit'
	@echo 'make bench    the library beside a plain Rust chip, times and instructions, into docs/PERFORMANCE.md'
	@echo 'make soak     the differential test for SOAK_CALLS calls (default 50,000,000)'
	@echo 'make tests    the tests without rt ci'
	@echo 'make check    prove what has changed'
	@echo 'make clean    remove what was built'

# What a machine has to have; one sentence for the first that it has not.
needed:
	@command -v rt > /dev/null || { echo 'make: the Rattle kit is not installed: there is no rt on the path. (An archive of "make dist" needs none.)'; exit 1; }
	@command -v cargo > /dev/null || { echo 'make: Rust is not installed: there is no cargo on the path.'; exit 1; }
	@command -v $(CC) > /dev/null || { echo 'make: there is no C compiler on the path: $(CC) is not found.'; exit 1; }

# Proved, compiled and linked by the toolchain.
$(BUILD)/profile_check: $(SOURCES)
	@tools/prove --if-changed profile_check
	@cp crates/profile_check/out/profile_check $@

$(LIBRARY): $(SOURCES)
	@tools/prove --if-changed $(INTERFACE)
	@cp crates/$(INTERFACE)/out/lib$(INTERFACE).a $@

# Archives for tests alone: libcrc_exports.a has the checksum over slices.
$(BUILD)/lib%.a: $(SOURCES)
	@tools/prove --if-changed $*
	@cp crates/$*/out/lib$*.a $@

library: needed $(LIBRARY)

$(BUILD)/lock: examples/lock.c include/mfrc531.h $(LIBRARY)
	@$(CC) $(CFLAGS) -Iinclude examples/lock.c $(LIBRARY) -o $@

# The command-line tool, Rust on the library.
tool: needed $(BUILD)/mfrc531

$(BUILD)/mfrc531: $(LIBRARY) $(shell find tools/mfrc531 bindings/rust -name target -prune -o -type f -print)
	@cd tools/mfrc531 && CARGO_TARGET_DIR=$(BUILD)/cargo cargo build --offline --release --quiet
	@cp $(BUILD)/cargo/release/mfrc531 $@

run: needed
	@tools/prove $(INTERFACE) profile_check
	@$(MAKE) --no-print-directory -s $(BUILD)/lock $(BUILD)/profile_check $(BUILD)/mfrc531
	@echo
	@echo 'A first firmware, examples/lock.c, on the proved chip:'
	@$(BUILD)/lock
	@echo
	@echo 'The profile check, on the profiles of profiles/:'
	@$(BUILD)/mfrc531 profile profiles/*.hex || [ $$? = 1 ]
	@echo
	@echo 'A chip to type at: build/mfrc531 shell'

# All that the tests link or check again, proved side by side before any of it is built.
proved: needed
	@tools/prove

# Each by itself, two at a time; a test's lines are shown together when it has ended.
TESTS := differential firmware contracts_bound tool impostors dist hal first_run instructions profile_check manual crate_map
TRIED := $(addprefix try_,$(TESTS))
.PHONY: $(TRIED) tests

# The gate: rt ci first, over the checkout as it stands, then the tests; and rt ci's verdict once more.
test: needed
	@tools/ci
	@$(MAKE) --no-print-directory tests
	@grep '^rt: ok;' $(BUILD)/ci.log
	@tail -n 1 $(BUILD)/ci.log

tests: proved
	@$(MAKE) --no-print-directory -s $(BUILD)/lock $(BUILD)/profile_check $(BUILD)/mfrc531 $(BUILD)/libcrc_exports.a
	@$(MAKE) --no-print-directory -j2 --output-sync=target $(TRIED)

try_crate_map:
	tools/crate_map --check

try_first_run:
	tests/first_run

try_profile_check:
	tests/profile_check $(BUILD)/profile_check

try_tool:
	tests/tool $(BUILD)

try_manual:
	tests/manual $(BUILD)

try_firmware:
	tests/firmware $(BUILD)

try_hal:
	tests/hal $(LIBRARY)

try_dist:
	tests/dist "$$($(MAKE) --no-print-directory -s dist)"

try_differential:
	tests/differential/run $(CALLS)

try_impostors:
	tests/impostors

try_instructions:
	tests/instructions --check docs/PERFORMANCE.md

try_contracts_bound:
	tests/contracts_bound

# The same library with a second exported caller of the events, for a look at what that costs.
$(BUILD)/libsecond_caller.a: FORCE
	@tests/second_caller $@ $(INTERFACE)

bench: $(LIBRARY) $(BUILD)/libcrc_exports.a $(BUILD)/libsecond_caller.a
	tests/differential/bench docs/PERFORMANCE.md second_caller

soak: $(LIBRARY) $(BUILD)/libcrc_exports.a
	tests/differential/run $(SOAK_CALLS)

# Takes what is built, and needs no rt where nothing under crates/ is newer. The version stands in the header alone.
VERSION = $(shell sed -n 's/^.define MFRC531_VERSION_STRING "\(.*\)"/\1/p' include/mfrc531.h)
INSTALLED = $(DESTDIR)$(abspath $(PREFIX))
install: $(LIBRARY) $(BUILD)/mfrc531 $(BUILD)/profile_check
	install -d $(INSTALLED)/lib/pkgconfig $(INSTALLED)/lib/cmake/mfrc531 $(INSTALLED)/include $(INSTALLED)/bin
	install -m 644 $(LIBRARY) $(INSTALLED)/lib/libmfrc531.a
	install -m 644 include/mfrc531.h $(INSTALLED)/include/mfrc531.h
	install -m 755 $(BUILD)/mfrc531 $(BUILD)/profile_check $(INSTALLED)/bin
	sed 's|@PREFIX@|$(abspath $(PREFIX))|;s|@VERSION@|$(VERSION)|' mfrc531.pc.in | install -m 644 /dev/stdin $(INSTALLED)/lib/pkgconfig/mfrc531.pc
	install -m 644 cmake/mfrc531-config.cmake $(INSTALLED)/lib/cmake/mfrc531/mfrc531-config.cmake
	sed 's|@VERSION@|$(VERSION)|' cmake/mfrc531-config-version.cmake.in | \
	    install -m 644 /dev/stdin $(INSTALLED)/lib/cmake/mfrc531/mfrc531-config-version.cmake

dist: $(LIBRARY) $(BUILD)/mfrc531 $(BUILD)/profile_check
	@tools/dist $(BUILD) $(VERSION)

check:
	rt all check --jobs $(RT_JOBS)

clean:
	rm -rf build crates/*/out bindings/rust/target tools/mfrc531/target tests/differential/target

FORCE:
