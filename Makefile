# Proves and builds the library, and runs what checks it. What the rules do is in tools/ and tests/.
# `make` prints the comments that have two signs.

LIB := target/staticlib/libvhart.a
BOARD := $(addsuffix libvhart.a,target/riscv64/ $(addprefix target/riscv64/,lp64d/ aligned/ aligned/lp64d/))

# The support program, and what it is made of beside the library.
PROGRAM := target/vhart
PROGRAM_SOURCES := tools/cargo tools/program $(shell find rust/Cargo.* rust/support rust/vhart rust/entries -type f)

# Before a library is built. One that is there can be used without the kit.
KIT := $(if $(wildcard $(LIB)),,kit)

# On Arm the library is built for Arm, and for x86-64 beside it, which is run under emulation.
ARM := $(filter aarch64,$(shell uname -m))

.PHONY: help demo boot boot-console boot-linux lib riscv64 program install uninstall clean
.PHONY: test bench compare vectors damage fuzz faults
.PHONY: kit tools tools-c tools-rust tools-install tools-fuzz tools-riscv64 tools-boot

export ORIGINAL CALLS SEED FOR PREFIX DESTDIR

# One rule after the other, also with -j: test-proofs removes the library, and the others build it.
.NOTPARALLEL:
.DELETE_ON_ERROR:

help: ## this list
	@sed -nE 's/^([a-z0-9-]+):.* ## (.*)/  make \1|\2/p; s/^## ?(.*)/\1/p' Makefile | \
	    awk -F '|' 'NF == 2 { printf "%-24s%s\n", $$1, $$2; next } { print }'

##
## Build it, in some minutes. This needs `rt`, the command of the Rattle kit that KIT names.
demo: $(KIT) tools-rust $(LIB) ## the library and a small monitor, which plays a firmware's session
	@tests/run play

# What a boot of firmware needs.
BOOT := $(KIT) tools-rust tools-riscv64 tools-boot $(LIB) $(BOARD) $(PROGRAM)

boot: $(BOOT) ## OpenSBI and U-Boot under a monitor, and what they did
	@tests/boot/run show

boot-console: $(BOOT) ## the same at your own terminal
	@tests/boot/run console

boot-linux: $(BOOT) ## Debian's kernel under it; fetches 110 MB
	@tools/need fdtget
	@tests/boot/run linux

lib: $(LIB) ## the library for this machine: target/staticlib/libvhart.a

riscv64: $(BOARD) ## for a board: target/riscv64/libvhart.a and, for aligned images, aligned/

program: $(KIT) tools-rust $(PROGRAM) ## the support program, for a terminal: target/vhart

install: $(KIT) $(if $(wildcard $(PROGRAM)),,tools-rust) $(LIB) $(BOARD) $(PROGRAM) ## header, libraries, program and vhart.pc, into PREFIX (/usr/local) below DESTDIR
	@tools/install

uninstall: ## removes them
	@tools/install --remove

clean: ## removes target/, where all is built
	rm -rf target

##
## Check it. Missing tools come first: root on Debian has them installed, others are told which.
# The library comes after the proofs, and is made of what they left. rt ci's line comes last, again.
STEPS := $(addprefix test-,layout documents proofs symbols c make bad-input rust program agreement comparison riscv64 boot demo)
.PHONY: $(STEPS)
test: PROVED := --proved
test: kit tools tools-install tools-riscv64 $(STEPS) ## the whole gate: every proof, and what is built on the library
	@tail -n 1 target/ci.txt

test-layout: kit
	@tests/run layout

test-documents: ## are the documents true of the tree?
	@tests/documents

test-proofs: kit ## every proof (rt ci)
	@tests/run proofs

test-symbols: $(KIT) tools-c $(LIB)
	@tests/run symbols

test-c: $(KIT) tools-c $(LIB) ## the library from C and C++
	@tests/run c

test-make: $(KIT) tools-install tools-rust $(LIB) $(BOARD) $(PROGRAM) ## this list, and what make install installs
	@tests/make

test-bad-input: $(KIT) tools-c $(LIB) ## a million calls of bad input
	@tests/run bad_input

test-rust: $(KIT) tools-rust $(LIB) ## the library from Rust
	@tests/run rust

test-program: $(KIT) tools-rust $(PROGRAM) ## the support program, as people use it
	@tests/program

test-agreement: $(KIT) tools-rust $(LIB)
	@tests/run agreement

test-comparison: $(KIT) tools-rust $(LIB)
	@tests/run comparison

test-riscv64: kit tools-c tools-rust tools-riscv64 $(LIB) $(BOARD) $(PROGRAM) ## the library on emulated RISC-V
	@tests/riscv64

test-boot: kit tools-rust tools-riscv64 $(LIB) $(BOARD) $(PROGRAM) ## firmware under the monitor of rust/boot
	@tests/boot/run check

test-demo: $(KIT) tools-rust $(LIB)
	@tests/run demo

##
## Long runs. ORIGINAL=DIR names the sources of Miralis, the original. CALLS=N and SEED=S are for
## compare and damage.
compare: $(KIT) tools-rust $(LIB) ## ten million calls beside the original
	@tests/long compare

damage: $(KIT) tools-c $(LIB) ## ten million calls of bad input
	@tests/long damage

fuzz: $(KIT) tools-fuzz $(LIB) ## libFuzzer, for FOR=60 seconds
	@tests/long fuzz

faults: kit tools tools-riscv64 $(LIB) $(BOARD) $(PROGRAM) ## faults put into copies: which check sees each?
	@tests/long faults

bench: kit tools tools-riscv64 $(LIB) $(BOARD) ## what a call costs
	@tests/long measure

vectors: $(KIT) tools-rust $(LIB) ## asks the original for the stored answers again
	@tests/long store

# One run builds them all: of the same proofs, and the same modules.
$(LIB) $(BOARD) &: $(shell tools/sources)
	@tools/need rt
	@tools/library $(PROVED)

# Cargo isn't called if nothing is newer: so root can install what others have built, without it.
$(PROGRAM): $(LIB) $(PROGRAM_SOURCES)
	@tools/need gcc cargo
	@tools/program

# What the tools are needed for comes minutes later: so they are seen to first. rt comes before all
# others, since without it nothing need be installed.
kit:
	@tools/need rt

tools:
	@tools/need gcc g++ valgrind nm cargo

tools-c:
	@tools/need gcc g++ valgrind nm

tools-rust:
	@tools/need gcc cargo

tools-install:
	@tools/need gcc pkg-config

tools-fuzz:
	@tools/need libfuzzer

tools-boot:
	@tools/need rust-core opensbi u-boot

tools-riscv64:
	@tools/need $(addprefix riscv64-linux-gnu-,gcc ar nm objcopy objdump size) readelf qemu-riscv64 qemu-system-riscv64 \
	    $(if $(ARM),x86_64-linux-gnu-gcc x86_64-linux-gnu-nm qemu-x86_64)
