# Proves, builds, tests and installs:
#
#     make            proves and builds the program, then shows a day at the bench (examples/day.sh)
#     make test       proves everything, and runs all tests (.ci/run)
#     make lib        proves the C interface, and makes a static library and a shared object in target/lib
#     make install    puts program, header, both libraries and a pkg-config file below PREFIX (/usr/local); DESTDIR stages them
#     make clean      removes all that was built
PREFIX = /usr/local

program = target/bin/control_chart
lib = target/lib
sources = crates.txt $(shell find crates -name out -prune -o \( -name '*.rt' -o -name '*.antt' \) -print)
version = $(shell sed -n 's/^.define CONTROL_CHART_VERSION "\(.*\)"$$/\1/p' include/control_chart.h)

.PHONY: day test lib install clean

day: $(program)
	@echo
	@echo 'A day at the bench (examples/day.sh), in a temporary folder:'
	@echo
	@PATH="$(CURDIR)/bin:$$PATH" examples/day.sh

test:
	.ci/run

lib: $(lib)/libcontrol_chart.so

install: $(program) $(lib)/libcontrol_chart.so
	set -eu; prefix=$$(realpath -m -- '$(PREFIX)'); to='$(DESTDIR)'$$prefix; \
	install -d "$$to/bin" "$$to/libexec" "$$to/include" "$$to/lib/pkgconfig"; \
	install -m 755 bin/control_chart "$$to/bin/control_chart"; \
	install -m 755 $(program) "$$to/libexec/control_chart"; \
	install -m 644 include/control_chart.h "$$to/include/control_chart.h"; \
	install -m 644 $(lib)/libcontrol_chart.a "$$to/lib/libcontrol_chart.a"; \
	install -m 755 $(lib)/libcontrol_chart.so "$$to/lib/libcontrol_chart.so"; \
	{ printf 'prefix=%s\n' "$$prefix"; sed 's/@VERSION@/$(version)/' include/control_chart.pc.in; } > "$$to/lib/pkgconfig/control_chart.pc"; \
	chmod 644 "$$to/lib/pkgconfig/control_chart.pc"

clean:
	rm -rf target crates/*/out

need_rt = @command -v rt > /dev/null || { echo 'The Rattle kit is missing: put its command rt on the PATH (README.md)' >&2; exit 1; }

# rt proves what has changed, and builds nothing that is not proved. It builds the program in the folder out of its crate, and so does
# `rt ci`. `rt run` runs what it has built, here on no input. If only that folder is gone, nothing is built again.
built = crates/control_chart/out/control_chart
.SECONDARY: $(built)
$(built): $(sources)
	$(need_rt)
	@echo 'Proving and building the program: some minutes. A note of the prover is not a fault.'
	cd crates/control_chart && rt run < /dev/null
	touch $@

$(program): $(built)
	mkdir -p $(@D)
	cp $< $@

$(lib)/libcontrol_chart.a: $(sources)
	$(need_rt)
	cd crates/chart_c && rt lib < /dev/null
	mkdir -p $(lib)
	cp crates/chart_c/out/libchart_c.a $@

$(lib)/libcontrol_chart.so: $(lib)/libcontrol_chart.a
	$(CC) -shared -Wl,-soname,libcontrol_chart.so -Wl,-z,defs -Wl,--whole-archive $< -Wl,--no-whole-archive -o $@
