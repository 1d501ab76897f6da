# The tests over the C boundary: the library against an independent model.
#   make test-host      500,000 random calls, and 200,000 random keyrings; build/test_host --seed random has others each time. Then test-guarded
#   make test-guarded   60,000 calls and 6,000 keyrings on buffers between pages that cannot be touched, in pages that cannot be written where the call may not
#   make test-valgrind  20,000 calls and 1,000 keyrings under valgrind, with buffers of exactly their length
#   make test-faults    a model with one planted fault after the other: the runner has to find each
#   make test-stack     every kind of call on a stack of KEYLOCKER_STACK_SIZE bytes, without the model; make bench prints the same figures. Then which keys
#                       each leaves on the stack, and that keylocker_clear_stack leaves none, by several compilers and options

HOST_FLAGS = -std=c11 -Wall -Wextra -Werror -O2 -Iinclude
HOST_HEADERS := $(wildcard tests/host/*.h) include/keylocker.h
HOST_OBJECTS := $(patsubst tests/host/%.c,build/host/%.o,$(wildcard tests/host/*.c))
KINDS_OBJECTS = build/stack/kinds.o build/stack/guard.o build/host/catch.o build/host/chance.o

.PHONY: test-host test-guarded test-valgrind test-faults test-stack

test-host: build/test_host
	./build/test_host
	$(GUARDED)

test-guarded: build/test_host
	$(GUARDED)

define GUARDED
./build/test_host --guarded --calls 60000 --keyrings 6000 >build/test_guarded.log || { cat build/test_guarded.log; exit 1; }
@grep -e 'no difference$$' -e guards build/test_guarded.log
endef

test-valgrind: build/test_host
	valgrind --quiet --error-exitcode=3 --leak-check=full ./build/test_host --calls 20000 --keyrings 1000 >build/test_valgrind.log || \
	    { cat build/test_valgrind.log; exit 1; }
	@grep 'no difference$$' build/test_valgrind.log

test-faults: build/test_host
	CC="$(CC)" CFLAGS="$(HOST_FLAGS)" tests/host/faults.sh

build/test_host: $(HOST_OBJECTS) build/libkeylocker.a
	$(CC) $(HOST_FLAGS) -o $@ $^

build/host/%.o: tests/host/%.c $(HOST_HEADERS)
	@mkdir -p build/host
	$(CC) $(HOST_FLAGS) -c -o $@ $<

test-stack: build/test_stack $(KINDS_OBJECTS) build/host/aes.o
	./build/test_stack
	CC="$(CC)" tests/host/secrets/run.sh $(KINDS_OBJECTS) build/host/aes.o build/libkeylocker.a

build/test_stack: build/stack/stack.o $(KINDS_OBJECTS) build/libkeylocker.a
	$(CC) $(HOST_FLAGS) -o $@ $^

build/stack/%.o: tests/host/stack/%.c $(wildcard tests/host/stack/*.h) $(HOST_HEADERS)
	@mkdir -p build/stack
	$(CC) $(HOST_FLAGS) -c -o $@ $<
