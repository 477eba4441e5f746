# make            proves and builds both programs, p11 and its terminal, where they aren't proved from these sources
# make proved     the same
# make install    puts them, the library for C, the manual pages and the examples below PREFIX (/usr/local), or below DESTDIR
#                 and then PREFIX; what isn't proved is proved first
# make uninstall  takes away just that
# make dist       makes in dist/ what a release has, of what is proved and what the gate passed on (tools/dist/make), and renews
#                 release/, which the repository carries of it (tools/dist/keep); KEY=FILE signs both with a key of ssh-keygen's
# make NAME       proves and builds the crate NAME, and before it what it stands on
#
# Which crate stands on which is read off crates.txt, whose lines are rules of make. Crates that don't stand on each other
# are proved side by side (make -j).

PREFIX ?= /usr/local

.PHONY: all proved install uninstall dist
all proved:
	@tools/prove p11_run p11_terminal

install:
	@tools/install '$(PREFIX)' '$(DESTDIR)'

uninstall:
	@tools/install --remove '$(PREFIX)' '$(DESTDIR)'

dist:
	@tools/dist/make
	@tools/dist/keep

include crates.txt

crates := $(notdir $(patsubst %/,%,$(wildcard crates/*/)))
programs := $(notdir $(patsubst %/src/main.rt,%,$(wildcard crates/*/src/main.rt)))
kit := $(filter-out $(crates) %:,$(shell sed '/^\#/d' crates.txt))
# What the processor stands on goes first, and then the longest chain: these others are proved with what that leaves of the
# cores. The large crates get as many jobs as rt finds room for, and each other crate one.
aside := p11_tape p11_arguments p11_lines p11_store p11_files
large := p11_decode p11_overlay p11_rk11 p11_unibus p11_lines p11_cpu p11_panel
verb = $(if $(filter $@,$(programs)),run -- --help,lib $(if $(filter $@,$(large)),,--jobs 1))
behind = $(if $(filter $@,$(aside)),nice -n 10)

.PHONY: $(crates) $(kit)
$(crates):
	@DONE='$(DONE)' OF='$(OF)' $(behind) tools/prove-crate $@ $(verb)
