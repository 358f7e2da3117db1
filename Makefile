# What a C host links, and the example that shows how.
#
#     make             the library, the header's check, the example
#     make picture     the example's picture, target/host/stock.svg
#     make test        tests/host/run
#
# It needs rt, and a C compiler, on x86-64 Linux.

LIBRARY = crates/host/out/libhost.a

all: $(LIBRARY) target/host/header target/host/stock

$(LIBRARY): crates.txt $(shell find crates -name out -prune -o \( -name '*.rt' -o -name '*.antt' \) -print)
	cd crates/host && rt lib

target/host/header: tests/host/header.c include/gauge.h $(LIBRARY)
	@mkdir -p target/host
	tools/link $@ -O2 tests/host/header.c
	$@

target/host/stock: examples/stock.c include/gauge.h $(LIBRARY)
	@mkdir -p target/host
	tools/link $@ -O2 examples/stock.c

picture: target/host/stock
	target/host/stock examples/flange.stl examples/flange_points.txt target/host/stock.svg

test:
	tests/host/run

.PHONY: all picture test
