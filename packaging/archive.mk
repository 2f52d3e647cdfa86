# Lays what this archive has into a machine's folders. It needs make alone, and neither the kit nor a compiler.
#
#   make install [PREFIX=/usr/local] [DESTDIR=]    program, libraries, header, tables and pages; the extensions for SQLite and DuckDB, and
#                                                  that for PostgreSQL where `pg_config` is of the version that it was built for
#   make install-postgresql [PG_CONFIG=pg_config]  that alone
#   make uninstall                                 takes the same files away
#   make renew RELEASE=FOLDER                      lays the tables of a later release of libphonenumber in place of those that were
#                                                  installed; it needs Python 3, and `phone-renew --help` tells what a release is
PREFIX ?= /usr/local
DESTDIR ?=
PG_CONFIG ?= pg_config
to = $(DESTDIR)$(PREFIX)
name = phonenumber-proved
# The folder of the extension for PostgreSQL, and its major version.
built = $(wildcard sql/postgresql-*)
major = $(patsubst sql/postgresql-%,%,$(built))
is_here = $(if $(major),$(filter $(major).%,$(word 2,$(shell $(PG_CONFIG) --version 2>/dev/null))))
library = $(DESTDIR)$(shell $(PG_CONFIG) --pkglibdir)
scripts = $(DESTDIR)$(shell $(PG_CONFIG) --sharedir)/extension

install: install-tree $(if $(wildcard sql),install-sqlite install-duckdb) $(if $(is_here),install-postgresql)

install-tree:
	mkdir -p $(to)
	for each in bin include lib libexec share; do cp -R -P $$each $(to)/ || exit 1; done

install-sqlite:
	install -D -m 755 sql/sqlite/phonenumber.so $(to)/lib/sqlite3/phonenumber.so

install-duckdb:
	install -D -m 755 sql/duckdb/phonenumber.duckdb_extension $(to)/lib/duckdb/phonenumber.duckdb_extension

install-postgresql:
	$(if $(is_here),,$(error $(PG_CONFIG) is not of PostgreSQL $(major)))
	install -D -m 755 $(built)/phonenumber.so $(library)/phonenumber.so
	for each in $(built)/phonenumber.control $(built)/*.sql; do install -D -m 644 $$each $(scripts)/$${each##*/} || exit 1; done

uninstall:
	find bin include lib libexec share ! -type d | sed 's|^|$(to)/|' | xargs rm -f
	rm -f $(to)/lib/sqlite3/phonenumber.so $(to)/lib/duckdb/phonenumber.duckdb_extension
	$(if $(is_here),rm -f $(library)/phonenumber.so $(scripts)/phonenumber.control $(addprefix $(scripts)/,$(notdir $(wildcard $(built)/*.sql))))
	for each in include share libexec; do rmdir $(to)/$$each/$(name) 2>/dev/null || true; done

renew:
	$(to)/bin/phone-renew $(RELEASE)

.PHONY: renew install install-tree install-sqlite install-duckdb install-postgresql uninstall
