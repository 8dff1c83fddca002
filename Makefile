# make demo: makes an origin folder with a file of some MiB, runs a schedule of two clients over it, shows replies and log, and
#   then what later runs find on disk
# make crash: kills runs over one cache with signal 9, a hundred times, and reads back what they claimed
# make bin: builds the proved programs into bin/
# make bench: prints what the hot paths cost on this machine, beside the same jobs in C

PROGRAMS := xcache_replay xrdpfc_print
PROGRAMS := $(filter $(PROGRAMS),$(notdir $(wildcard crates/*)))

.PHONY: demo crash bin bench clean

demo: bin
	sh examples/demo.sh
	sh examples/restart.sh

crash: bin
	sh examples/crash/run.sh

bin: $(addprefix bin/,$(PROGRAMS))

# A run without words proves, builds and starts the program, which then says how it is called.
bin/%: FORCE
	@mkdir -p bin
	@cd crates/$* && (rt run >/dev/null 2>&1 || true) && cp out/$* ../../bin/$*

bench: bin/pfc_bench
	sh examples/bench/compare.sh

clean:
	rm -rf bin crates/*/out

FORCE:
