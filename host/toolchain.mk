# The compiler of the host tests, by the processor. The archive is x86-64 code: elsewhere a cross compiler links it, and an emulator runs it.
PROCESSOR := $(shell uname -m)
ifeq ($(PROCESSOR),x86_64)
CC := gcc
CXX := g++
NM := nm
GCOV := gcov
STATIC :=
RUN :=
RUN_BUILT :=
else
CC := x86_64-linux-gnu-gcc
CXX := x86_64-linux-gnu-g++
NM := x86_64-linux-gnu-nm
GCOV := x86_64-linux-gnu-gcov
STATIC := -static
RUN := qemu-x86_64
# The tests are linked statically. The programs that rt builds are not, and need the cross compiler's C library.
LIBRARIES := /usr/x86_64-linux-gnu/lib
RUN_BUILT := qemu-x86_64 $(LIBRARIES)/ld-linux-x86-64.so.2 --library-path $(LIBRARIES)
endif

# Debian's pymodbus belongs to Debian's python3, which need not be the first on the path.
PYTHON := /usr/bin/python3

# Followed by what is needed, as tools.sh says. A tool that is missing is told by its name.
TOOLS = CC='$(CC)' CXX='$(CXX)' NM='$(NM)' RUN='$(RUN)' STATIC='$(STATIC)' PYTHON='$(PYTHON)' ../host/tools.sh $(BUILD)

# Sanitizers, where a program can be built with them.
TRIAL := printf '\#include <stdio.h>\nint main(void) { return puts("") < 0; }\n'
SANITIZE = $(shell $(TRIAL) | $(CC) -fsanitize=address,undefined -x c - $(STATIC) -o $(BUILD)/trial 2>/dev/null \
	&& $(RUN) $(BUILD)/trial >/dev/null 2>&1 && echo -fsanitize=address,undefined -fno-sanitize-recover=all)
