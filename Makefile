.PHONY: run audit audit_stored audit_compact audit_live audit_split inspect library install uninstall test quick check try

PREFIX ?= /usr/local
LIBDIR ?= $(PREFIX)/lib
INCLUDEDIR ?= $(PREFIX)/include
PLACES = PREFIX="$(PREFIX)" LIBDIR="$(LIBDIR)" INCLUDEDIR="$(INCLUDEDIR)" DESTDIR="$(DESTDIR)"

# Runs the program on the sample stream of crates/audit, without proving anything.
run:
	@python3 .ci sample

# Proves and builds the program, crates/audit/out/audit, and runs it on the sample stream.
audit:
	@python3 .ci built audit

# Proves and builds the program for stored streams, crates/audit_stored/out/audit_stored, and runs it on the same stream.
audit_stored:
	@python3 .ci built audit_stored

# Proves and builds the program that writes a shorter stream in place of a stream, crates/audit_compact/out/audit_compact, and
# runs it on the sample stream twice over.
audit_compact:
	@python3 .ci built audit_compact

# Proves and builds the program that writes each line at once, crates/audit_live/out/audit_live, and runs it on the sample.
audit_live:
	@python3 .ci built audit_live

# Proves and builds the program that cuts streams into parts, crates/audit_split/out/audit_split, and runs it on the sample.
audit_split:
	@python3 .ci built audit_split

# Proves and builds the program that shows what is in a stream, crates/inspect/out/inspect, and runs it on the same stream.
inspect:
	@python3 .ci built inspect

# Proves and builds the library of bindings/: libsimplex_audit.a in bindings/out, and linked from it simplex_audit.so.
library:
	@python3 .ci library

# Copies what is built, by a target above or by `make test`, and says which: the programs to PREFIX/bin, as simplex-audit,
# simplex-audit-stored and so on, with links by the short names that no other program has; and of the library the header to
# INCLUDEDIR, the static and the shared one to LIBDIR, and to LIBDIR/pkgconfig what pkg-config reads. DESTDIR stands before each
# path that is written to.
install:
	@env $(PLACES) python3 .ci install

# Removes what `make install` with the same variables has copied.
uninstall:
	@env $(PLACES) python3 .ci install remove

# The gate: proves everything, tries the mutants, runs the tests and the programs, and then tries what was
# built as its users would, and with each of its allocations made to fail.
test:
	python3 .ci gate

# Answers the stored test vectors, without proving anything.
quick:
	python3 .ci quick

# Proves what changed.
check:
	rt all check

# Proves what changed in a crate, and then answers the stored test vectors: make try CRATE=simplex_lead.
try:
	@test -d "crates/$(CRATE)/src" || { echo 'Which crate? make try CRATE=simplex_lead' >&2; exit 2; }
	env --chdir="crates/$(CRATE)" rt check
	python3 .ci quick
