# `make` alone prints what can be made. The recipes are short: the work is in host/.

TRACE = examples/worked.trace
STEPS = 200000
TRACES = 1000
SEED = 1
ROUNDS = 15
PREFIX = /usr/local
DESTDIR =
export TRACE PREFIX DESTDIR

.PHONY: help frostsorrel run registers test host-test compare bench install uninstall clean

help:
	@echo 'make frostsorrel   proves the library and builds the command; ./frostsorrel --help says what it does'
	@echo 'make run           prints the listing of a trace with the proved program, TRACE=$(TRACE); fails if it is none'
	@echo 'make registers     prints every register of a fresh model'
	@echo 'make test          the gate: everything that must hold before a change counts'
	@echo 'make host-test     its C tests alone'
	@echo 'make compare       library and program against the reference, STEPS=$(STEPS) TRACES=$(TRACES) SEED=$(SEED)'
	@echo 'make bench         the speed of the library beside plain C, ROUNDS=$(ROUNDS) SEED=$(SEED)'
	@echo 'make install       header, archive, commands, pkg-config file and man pages, PREFIX=$(PREFIX) DESTDIR=$(DESTDIR)'
	@echo 'make uninstall     takes these away again'
	@echo 'make clean         removes target/ and crates/*/out, proofs and all'

frostsorrel:
	@host/build frostsorrel

run:
	@host/replay "$$TRACE"

registers: frostsorrel
	@host/run frostsorrel registers

test:
	@bash .ci/run

host-test:
	@host/test

compare:
	@host/build compare draw_traces frostsorrel
	@host/run compare $(STEPS) $(SEED)
	@host/test_traces $(TRACES) $(SEED)

bench:
	@host/build bench
	@host/run bench $(ROUNDS) $(SEED)

install:
	@host/install

uninstall:
	@host/install --remove

clean:
	rm -rf target crates/*/out
