# The library, the program over it, and what is done with them; `make help` lists it. POSIX make will do; `make dist` asks for GNU tar.
.POSIX:

PREFIX = /usr/local
DESTDIR =
CC = cc
CFLAGS = -O2 -Wall -Wextra
RT = rt

archive = target/staticlib/libavarezhu.a
program = target/bin/avarezhu
version = $$(sed -n 's/^.define AVAREZHU_VERSION_STRING "\(.*\)"/\1/p' include/avarezhu.h)

all: $(program)

help:
	@echo 'make            the archive, which is proved first, and the program: $(archive), $(program)'
	@echo 'make samples    the pictures of samples/, to target/samples/'
	@echo 'make test       proves and tests all of it (.ci/run)'
	@echo 'make install    header, archive, program and pkg-config file under PREFIX ($(PREFIX)), in front of it DESTDIR'
	@echo 'make uninstall  takes them away again'
	@echo 'make dist       an archive for machines without rt, to target/dist/'
	@echo 'make clean      removes target/, what was proved too'

# What is built is looked at each time, and built again only where a file is newer. Of what rt says, its own lines and the verdict are shown.
$(archive): always
	@if test -f $@ && test -z "$$(find crates crates.txt -path '*/out' -prune -o -newer $@ -print)"; then exit 0; fi; \
	command -v $(RT) >/dev/null || { \
	    echo 'make: no $(RT). It proves and compiles the library, and comes with the Rattle kit: put the folder that holds it into PATH.' >&2; \
	    echo 'make: Without it, use an archive made by `make dist` elsewhere; README.md says more.' >&2; exit 1; }; \
	echo '$(RT) lib avarezhu'; mkdir -p target/staticlib; \
	{ status=0; (cd crates/avarezhu && $(RT) lib) 2>&1 || status=$$?; echo $$status >target/make.status; } | \
	    tee target/make.log | awk '/^rt: |^logic=/ { print; fflush() }'; \
	test "$$(cat target/make.status)" -eq 0 || { tail -n 40 target/make.log; echo 'make: target/make.log has all of it' >&2; exit 1; }; \
	cp crates/avarezhu/out/libavarezhu.a $@; \
	touch $@

$(program): $(archive) always
	@if test -f $@ && test -z "$$(find program include $(archive) -newer $@)"; then exit 0; fi; \
	mkdir -p target/bin; \
	echo '$(CC) -std=c99 $(CFLAGS) -Iinclude program/*.c $(archive) -o $@'; \
	$(CC) -std=c99 $(CPPFLAGS) $(CFLAGS) -Iinclude program/*.c $(archive) $(LDFLAGS) -o $@

samples: $(program)
	samples/draw

test:
	.ci/run

# Copies all that is installed to the folder $$to; the pkg-config file names the folder $$prefix.
put = install -d "$$to/bin" "$$to/include" "$$to/lib/pkgconfig"; \
	install -m 755 $(program) "$$to/bin/avarezhu"; \
	install -m 644 include/avarezhu.h "$$to/include/avarezhu.h"; \
	install -m 644 $(archive) "$$to/lib/libavarezhu.a"; \
	printf '%s\n' "prefix=$$prefix" 'includedir=$${prefix}/include' 'libdir=$${prefix}/lib' '' 'Name: Avarezhu' \
	    'Description: CSS gradients, from text to premultiplied RGBA bytes' "Version: $(version)" \
	    'Cflags: -I$${includedir}' 'Libs: -L$${libdir} -lavarezhu' >"$$to/lib/pkgconfig/avarezhu.pc"; \
	chmod 644 "$$to/lib/pkgconfig/avarezhu.pc"

install: $(program)
	@set -e; prefix='$(PREFIX)' to='$(DESTDIR)$(PREFIX)'; $(put); echo "installed in $$to: avarezhu $(version)"

uninstall:
	rm -f '$(DESTDIR)$(PREFIX)/bin/avarezhu' '$(DESTDIR)$(PREFIX)/include/avarezhu.h'
	rm -f '$(DESTDIR)$(PREFIX)/lib/libavarezhu.a' '$(DESTDIR)$(PREFIX)/lib/pkgconfig/avarezhu.pc'

# The same bytes from the same commit: names in order, one owner, and the time of the last commit (or SOURCE_DATE_EPOCH).
dist: $(program)
	@set -e; name=avarezhu-$(version)-x86_64-linux; prefix='$${pcfiledir}/../..' to=target/dist/$$name; \
	when=$${SOURCE_DATE_EPOCH:-$$(git log -1 --format=%ct 2>/dev/null || echo 0)}; \
	rm -rf target/dist; mkdir -p "$$to/samples"; $(put); \
	cp -R README.md docs examples "$$to"; cp samples/*.txt "$$to/samples"; \
	(cd "$$to" && find * -type f | LC_ALL=C sort | xargs sha256sum >../SHA256SUMS && mv ../SHA256SUMS .); \
	tar -C target/dist --format=ustar --sort=name --owner=0 --group=0 --numeric-owner --mode=u=rwX,go=rX --mtime="@$$when" \
	    -cf "$$to.tar" "$$name"; \
	gzip -9n "$$to.tar"; rm -rf "$$to"; echo "$$to.tar.gz"

clean:
	rm -rf target crates/*/out

always:

.PHONY: all help samples test install uninstall dist clean always
