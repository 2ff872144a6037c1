# bench.mk: the target `bench`, for the Makefile at the root to include. It builds the benchmark to target/bench and prints
# the tables that those of docs/PERFORMANCE.md are taken from. The root Makefile has the rule for the archive.
#
# A peer is used where it is installed (Debian: nettle-dev, libmbedtls-dev, libwolfssl-dev). Of mbedtls the static archive is linked, so that
# the linker can send its question for AES instructions to bench/mbedtls.c. A journal in a file is measured by host/benches/journal_file.rs.

BENCH_PROGRAM := target/bench/bench
BENCH_CFLAGS := -std=c11 -O2 -Wall -Wextra -Iinclude -Ibench
BENCH_LIBS := -Wl,-z,now

ifeq ($(shell pkg-config --exists nettle 2>/dev/null && echo yes),yes)
BENCH_CFLAGS += -DHAVE_NETTLE $(shell pkg-config --cflags nettle)
BENCH_LIBS += $(shell pkg-config --libs nettle)
endif

BENCH_MBEDTLS := $(wildcard $(shell $(CC) -print-file-name=libmbedcrypto.a))
ifeq ($(shell nm $(BENCH_MBEDTLS) 2>/dev/null | grep 'T mbedtls_aesni_has_support' >/dev/null && echo yes),yes)
BENCH_CFLAGS += -DHAVE_MBEDTLS
BENCH_LIBS += -Wl,--wrap=mbedtls_aesni_has_support $(BENCH_MBEDTLS)
endif

ifeq ($(shell pkg-config --exists wolfssl 2>/dev/null && echo yes),yes)
BENCH_CFLAGS += -DHAVE_WOLFSSL $(shell pkg-config --cflags wolfssl)
BENCH_LIBS += $(shell pkg-config --libs wolfssl)
endif

$(BENCH_PROGRAM): $(wildcard bench/*.c bench/*.h) bench/bench.mk $(wildcard include/*.h) $(ARCHIVE)
	@mkdir -p $(@D)
	$(CC) $(BENCH_CFLAGS) $(wildcard bench/*.c) $(ARCHIVE) $(BENCH_LIBS) -o $@

.PHONY: bench
bench: $(BENCH_PROGRAM)
	@sed -n 's/^model name[^:]*: //p' /proc/cpuinfo | head -n 1
	@$(CC) --version | head -n 1
	@echo "load before: $$(cut -d ' ' -f 1 /proc/loadavg) on $$(nproc) processors"
	@$(BENCH_PROGRAM)
	@sh bench/memory.sh $(ARCHIVE)
	@if command -v cargo > /dev/null; then (cd host && cargo bench --offline --quiet --bench journal_file); \
	else echo "cargo is missing: JournalFile is not measured"; fi
	@echo
	@echo "load after: $$(cut -d ' ' -f 1 /proc/loadavg)"
