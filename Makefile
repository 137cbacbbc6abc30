# `make test` runs the gate; `make check` proves what has changed since the last time; `make run` proves and builds the program and
# runs it on document 01's example; `make lib` leaves the library for C in target/lib: libframe.a, libframe.so of the same object, and
# frame.h; `make bench` measures decode and sheets.
.PHONY: test check run lib bench

test:
	bash .ci/run

check:
	rt all check

run:
	cd crates/frame && rt run < /dev/null > /dev/null
	bin/frame-in examples/frame < examples/frame/run.txt

lib:
	cd crates/host_c && rt lib
	mkdir -p target/lib
	cp include/frame.h target/lib/frame.h
	cp crates/host_c/out/libhost_c.a target/lib/libframe.a
	$(CC) -shared -Wl,-soname,libframe.so -Wl,-z,text -Wl,-z,defs \
	  -Wl,--whole-archive target/lib/libframe.a -Wl,--no-whole-archive -o target/lib/libframe.so

bench: lib
	FRAME_LIB_DIR=$(CURDIR)/target/lib cargo run --release --offline --quiet --manifest-path compare/Cargo.toml -- bench
