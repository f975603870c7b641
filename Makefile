# The gate, the demonstration, the programs, and what of them is installed. Programs need the toolchain and Python 3.
.PHONY: demo test build tool install uninstall release

# Where `install` puts programs, manuals, completions and samples, below the folder DESTDIR for who makes a package.
PREFIX = /usr/local
DESTDIR =

# Verifies and runs the samples, and compares what is printed with their traces. The toolchain runs the programs before
# they are proved here.
demo:
	@tools/needs.sh bash python3 rt
	@samples/demo.sh

# What is cheap of the scripts under tools/, and then the gate: every proof that this machine has not passed yet, the
# edits that must fail, the tests and the stored run. It fails where either does; the last line is the gate's.
test:
	@tools/needs.sh bash python3 rt
	@tools/smoke.sh; smoke=$$?; RT_JOBS="$$(tools/checks/lanes.py)" rt ci && [ $$smoke = 0 ]

# What compiles a program that is proved: clang, or Rattle's own compiler (BACKEND=rattle), which is done sooner, says
# how much stack the program takes, and makes a slower one.
BACKEND = llvm

# Proves every function of the program and of the crates below it, side by side, and leaves it at
# crates/microsys/out/microsys.
build:
	@tools/needs.sh python3 rt
	@tools/checks/libraries.py microsys
	@tools/checks/program.sh microsys $(BACKEND) verify ../../samples/bell.img

# The same for the program for makers: crates/microsys_tool/out/microsys_tool. What both use is proved once.
tool:
	@tools/needs.sh python3 rt
	@tools/checks/libraries.py microsys_tool
	@tools/checks/program.sh microsys_tool $(BACKEND) certify ../../samples/bell.txt /dev/null

# Copies the built programs, with their manuals, completions, samples and what compiles parts in C, and takes them away.
install:
	@tools/install/install.sh install "$(DESTDIR)$(PREFIX)"

uninstall:
	@tools/install/install.sh uninstall "$(DESTDIR)$(PREFIX)"

# Packs the same into out/microsys-VERSION-linux-x86_64.tar.gz, with sums and what it was built of.
release:
	@tools/install/release.sh
