# keylocker-run: the program, and the object that it has the dynamic linker load into others. For Linux on x86-64; elsewhere they are left out.

RUN_SHARED = mnemonic decode text
RUN_FRONT = main options iwkey machine_open machine_file map lock self scratch launch fail
RUN_OBJECT = object emulate fetch memory machine map lock self stacks actions interpose cpuid trace say bytes_own
RUN_HEADERS = $(wildcard run/*.h simulator/*.h) include/keylocker.h
RUN_FLAGS = $(CFLAGS) -Wno-deprecated-declarations -D_GNU_SOURCE -fPIC -fvisibility=hidden -Iinclude -Isimulator
RUN_BUILT = $(if $(filter x86_64-Linux,$(shell uname -m)-$(shell uname -s)),build/keylocker-run build/keylocker-run.so build/keylocker-run.1)

all: $(RUN_BUILT)

build/keylocker-run: $(patsubst %,build/run/%.o,$(RUN_FRONT) $(RUN_SHARED)) build/libkeylocker.a
	$(CC) $(CFLAGS) -o $@ $^

# Nothing of it but the functions that it stands in front of can be seen from outside. They are bound at once, because a handler cannot wait for the dynamic
# linker, and it starts before all others, so that their constructors may use the instructions.
build/keylocker-run.so: $(patsubst %,build/run/%.o,$(RUN_OBJECT) $(RUN_SHARED)) build/libkeylocker.a
	$(CC) $(CFLAGS) -shared -Wl,-z,now -Wl,-z,initfirst -Wl,--exclude-libs,ALL -o $@ $^ -ldl -lpthread

build/keylocker-run.1: build/keylocker-run tools/manual.py
	./build/keylocker-run --help | python3 tools/manual.py keylocker-run $(VERSION) >$@

build/run/%.o: run/%.c $(RUN_HEADERS)
	@mkdir -p build/run
	$(CC) $(RUN_FLAGS) -c -o $@ $<

# loops there are not to become calls of themselves
build/run/bytes_own.o: RUN_FLAGS += -ffreestanding -fno-tree-loop-distribute-patterns

build/run/%.o: simulator/%.c $(RUN_HEADERS)
	@mkdir -p build/run
	$(CC) $(RUN_FLAGS) -c -o $@ $<
