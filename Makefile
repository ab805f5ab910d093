# make: the programs in build/; bench, replay and second each read a session on standard input, service and second-service work on settings stores and
# images of a memory part.
# make replay SESSION=FILE: what the bridge does with a session, in words.
# make test: everything is proved and tested; its last line is 'N passed, 0 failed'.
# make soak EVENTS=N SEED=S: the programs are compared on N generated events.
# make figures: docs/FIGURES.md, the instructions, times and sizes of both bridges, and what the proofs take.
.PHONY: all replay test soak figures clean
.DELETE_ON_ERROR:
.NOTPARALLEL:

SESSION = sessions/written/worked-case.txt
EVENTS = 1000000
SEED = 1

c11 = -std=c11 -Wall -Wextra -Wpedantic -Werror -Ihost
strict = $(c11) -O2
crates := crates.txt $(shell find crates -type f -not -path '*/must-fail/*' -not -path 'crates/*/out/*')
headers := $(wildcard host/*.h check/*.h)
records = host/record.c host/command.c
replay = host/replay.c host/explain.c host/bench.c $(records)
service = host/service.c host/command.c
second = check/standin.c check/second_bridge.c check/second_store.c
second_service = check/second_service.c check/second_store.c check/second_mend.c
measure = check/measure.c check/measured.c $(records)
proving = @echo 'proving the crates (some minutes at first)'

all: build/bench build/replay build/second build/session build/generate build/service build/second-service build/stores build/images

replay: build/replay build/session
	@tools/replay '$(SESSION)'

test:
	@tests/run

soak: all
	@tests/soak '$(EVENTS)' '$(SEED)'

figures: build/session build/generate build/figures/thrandue build/figures/second
	@tools/figures

clean:
	rm -rf build crates/*/out

# Proved, then made, in its crate's out/, where `rt ci` leaves none. A program is made to be run: here on an empty session.
build/x86-64/bench: $(crates)
	$(proving)
	cd crates/bench && rt run </dev/null >/dev/null
	@mkdir -p $(@D)
	cp crates/bench/out/bench $@

build/libthrandue.a build/libservice.a: build/lib%.a: $(crates)
	$(proving)
	cd crates/$* && rt lib
	@mkdir -p $(@D)
	cp crates/$*/out/lib$*.a $@

# Those that hold proved code are x86-64 programs, on aarch64 too.
proved = replay coverage service unchanged mends
build/bench $(proved:%=build/%): build/%: build/x86-64/% tools/x86
	tools/x86 install $< $@

build/x86-64/replay: $(replay) build/libthrandue.a
build/x86-64/coverage: check/coverage.c host/bench.c $(records) build/libthrandue.a
build/x86-64/service: $(service) build/libservice.a
build/x86-64/unchanged: check/unchanged.c host/command.c build/libservice.a
build/x86-64/mends: check/mends.c host/command.c build/libservice.a
$(proved:%=build/x86-64/%): $(headers)
	@mkdir -p $(@D)
	tools/x86 cc $(strict) -o $@ $(filter %.c %.a,$^)

# Both bridges at -O3 by the compiler that made the archive, and one program that calls them. Their calls return to where it made them, so that
# they can be told from their caller.
build/figures/%.o: check/%.c $(headers) $(wildcard tools/freestanding/*.h)
	@mkdir -p $(@D)
	tools/x86 clang $(c11) -O3 -ffunction-sections -fno-asynchronous-unwind-tables -c -o $@ $<

build/figures/thrandue: $(measure) build/figures/plain_copy.o build/libthrandue.a
build/figures/second: $(measure) build/figures/plain_copy.o build/figures/second_bridge.o build/figures/second_store.o
build/figures/second: define = -DMEASURES_SECOND
build/figures/thrandue build/figures/second: $(headers)
	@mkdir -p $(@D)
	tools/x86 cc $(strict) $(define) -static -fno-optimize-sibling-calls -o $@ $(filter %.c %.o %.a,$^)

build/second: $(replay) $(second)
build/session: host/session.c $(records)
build/generate: check/generate.c host/bench.c $(records) $(second)
build/second-service: $(service) $(second_service)
build/stores: check/stores.c $(records)
build/images: check/images.c host/command.c
build/second build/session build/generate build/second-service build/stores build/images: $(headers)
	@mkdir -p $(@D)
	@tools/need cc gcc libc6-dev
	$(CC) $(strict) -o $@ $(filter %.c,$^)
