# Cedarskein: `make test` is the whole verdict. `make` alone says what there is.
KIT := rattle-kit-13f logic dac8208d650f15bf
# For `make meter`, `make why` and `make ask`: the sheet, by the name of a file or the short name of one in sheets/, of which the beginning is enough. For
# the first two the file of the bank, and with a sheet that has a history, that of the ring. For `make meter` another name for its line, and the seconds
# from one record of the history to the next. For `make why` a frame in hex. For `make ask` the line, the order, the meter's station and its rate.
SHEET := ux15_25
LINK :=
BANK :=
RING :=
EVERY :=
FRAME :=
ORDER :=
STATION :=
RATE :=
# For `make install` and `make uninstall`, as they are used elsewhere.
PREFIX := /usr/local
DESTDIR :=
export SHEET LINK BANK RING EVERY FRAME ORDER STATION RATE PREFIX DESTDIR
include host/toolchain.mk

# The names that were given on the command line. Make lets one pass that nobody uses, or that is empty, and the user wonders: so a target that takes
# names says which, and which may be empty, and all else is told. The toolchain's own may always be given.
GIVEN := $(foreach name,$(.VARIABLES),$(if $(filter command,$(firstword $(origin $(name)))),$(name)))
ALWAYS := KIT CC CXX NM GCOV RUN PYTHON
UNKNOWN = $(strip $(filter-out $(ALWAYS) $(1),$(GIVEN)))
EMPTY = $(strip $(foreach name,$(filter-out $(2),$(filter $(1),$(GIVEN))),$(if $(strip $($(name))),,$(name))))
takes = $(if $(UNKNOWN),$(error make $@ takes no $(UNKNOWN). It takes: $(1)))$(if $(EMPTY),$(error empty: $(EMPTY). Give each a name, or leave it out))

.PHONY: help test kit claims registers registers-check built host compare coverage boards demo demo-check meter why ask interop install uninstall bench bench-record
# Two runs of rt in one target/ would be in each other's way.
.NOTPARALLEL:

help:
	@echo "make demo      a new limit comes back with error 03: what is in the meter now, and why"
	@echo "make test      the whole verdict: what docs/CLAIMS.md cites, the archive in C programs, then the gate: every proof, must-fail edit and program"
	@echo "make meter     a simulated meter on a pseudo-terminal; SHEET=NAME is its sheet, LINK=NAME another name for its line, BANK=FILE keeps its bank;"
	@echo "               with a sheet that has a history, as history, RING=FILE keeps it, and EVERY=SECONDS is the time from one record to the next"
	@echo "make why       why a meter is silent or answers with an error; FRAME=\"01 06 ..\" is a frame in hex, without it each line of standard input is one;"
	@echo "               SHEET=NAME is the meter's sheet, BANK=FILE its bank, else a fresh one, RING=FILE its history, else an empty one: every frame is judged"
	@echo "               with them as they are, and none changes them"
	@echo "make ask       asks a meter over a serial line; LINK=NAME is the line, ORDER=\"read 0103 2\" what is asked: read ADDRESS COUNT, record ADDRESS WORDS,"
	@echo "               write ADDRESS VALUE, writes ADDRESS VALUE .. or clear ADDRESS; STATION=1, RATE=9600 or 4800, SHEET=NAME for names and units"
	@echo "make interop   what others wrote: mbpoll and pymodbus's client at the simulated meter, and make ask at servers of pymodbus and libmodbus"
	@echo "make registers the makers' registers by name: docs/REGISTERS.md, sheets/registers.csv, constants of C, from the sheets and tools/registers.txt"
	@echo "make host      the archive in C programs, alone"
	@echo "make install   archive, headers, sheets, pkg-config file and man page, under PREFIX=/usr/local and DESTDIR=; make uninstall removes them"
	@echo "make compare   the archive against a second implementation in C, on 2,000,000 calls; make coverage: the branches that it takes"
	@echo "make bench     what a call costs, beside the same functions by hand in C; make bench-record writes it into docs/BENCH.md"
	@{ $(rt_is_there) && $(tell_other_kit); } || true

# The proofs are held to one kit. Another may well prove them too, but its verdict is not the one recorded here.
rt_is_there = { command -v rt >/dev/null || { echo "Rattle's command rt is not installed: this repository is proved with $(KIT)." \
	"README.md says where it comes from, and what to do without it" >&2; false; }; }
tell_other_kit = { test "$$(rt version)" = "$(KIT)" || echo "note: this repository is proved with $(KIT); installed is $$(rt version)"; }
kit:
	@$(rt_is_there) && $(tell_other_kit)

# Every file and name that docs/CLAIMS.md cites is there, and it leaves no public function and no must-fail edit out.
claims:
	@python3 tools/claims.py; cited=$$?; python3 tools/claims.py --missing && exit $$cited

# The makers' registers by name. What is committed is what the script makes of the sheets and its list; it needs no archive.
registers:
	@python3 tools/registers.py

registers-check:
	@python3 tools/registers.py --check

# What the C programs are linked with and compared to. `rt` says much, which is shown where it fails.
built: kit
	@mkdir -p target && test -w target || { echo "the folder target may not be written" >&2; exit 1; }
	@said=$$(tools/built.sh archive 2>&1 && tools/built.sh program sheet_files 2>&1) || { echo "$$said"; exit 1; }

host: built
	@$(MAKE) -s -C host test

compare coverage: built
	@$(MAKE) -s -C host $@

boards: built
	@$(MAKE) -s -C board $@

demo demo-check interop: kit
	@$(MAKE) -s -C demo $@

# The meter is this make's own child: it ends well at Ctrl-C, and so no make has an error to tell of.
meter: kit
	@$(call takes,SHEET LINK BANK RING EVERY)$(MAKE) -s -C demo meter-built
	@exec demo/meter.sh $(RUN) target/demo/meter

# Standard input is the capture's, so nothing else may read it, and standard output has the sentences alone. As for `make install`, the archive that is
# there serves.
why:
	@$(call takes,SHEET BANK RING FRAME)$(MAKE) -s -C demo why-built </dev/null >&2
	@exec demo/why.sh $(RUN) target/demo/why

# The same: standard output has what is told of the meter alone. The program's own exit status, 0, 1 or 2, is in make's last line.
ask:
	@$(call takes,SHEET LINK ORDER STATION RATE)$(MAKE) -s -C demo ask-built </dev/null >&2
	@exec demo/ask.sh $(RUN) target/demo/ask

# What is installed is the archive that is there, built anew only where a crate is newer: so `sudo make install` has nothing to prove.
install:
	@$(call takes,PREFIX DESTDIR,DESTDIR)$(MAKE) -s -C demo archive
	@tools/install.sh install

uninstall:
	@$(call takes,PREFIX DESTDIR,DESTDIR)tools/install.sh uninstall

bench bench-record: built
	@$(MAKE) -s -C bench $(@:bench-%=%)

# The gate comes last: its last line is the verdict's.
test: kit claims registers-check host demo-check
	@exec tools/gate.sh
