# What a person would ask for. The toolchain's command `rt` has to be on the PATH.
.PHONY: help check demo drill trial example services soak soak-door soak-fence instances powercut takeover build prove lib test program load refusals bench sweep nightly install install-lib uninstall deb release

PREFIX ?= /usr/local
PROGRAM ?= bin/resetd
# The proxy is installed of the same kind as the program: the proved one, or the trial build.
PROXY ?= $(if $(findstring trial,$(PROGRAM)),bin/resetd-proxy-trial,bin/resetd-proxy)
# The folder of the members' library that the soak of the door takes.
LIBRARY ?= lib
# So many checks run at a time, each on one processor and with up to 3 GB of memory.
JOBS ?= $(shell nproc)

help:
	@echo 'make check     proves one crate and those that depend on it, and runs their tests (CRATE=NAME)'
	@echo 'make demo      eight services and a coordinator that is killed in the middle of a reset and started again '
	@echo 'make drill     one reset of two nodes, each line that the drill reads beside what it prints'
	@echo 'make trial     builds the program without any proof at bin/resetd-trial, in some 80 seconds; demo, drill, example, services and soak take it where there is no bin/resetd'
	@echo 'make example   the example services of examples/ around a coordinator, in a few seconds'
	@echo 'make services  tries what services rest on: restores, members that come again, a work queue, torn and lost lines, 64 members, messages'
	@echo 'make build     proves every crate, and leaves the programs at bin/resetd and bin/resetd-proxy; nothing is proved again while that is newer than every source'
	@echo 'make lib       proves the members'"'"' library for C and other languages, and leaves it in lib/: libresetd_member.a, .so, its header and a file for pkg-config'
	@echo 'make test      what every change has to pass: every crate is proved from nothing (some kits keep what passed here before), the must-fail edits, the programs, then all tests over these programs, which it leaves in bin/'
	@echo 'make program   runs the tests of the crates and of the program as people run it (tests/), over trial builds, in some minutes'
	@echo 'make load      the same ten times on a busy machine, where none may fail (TIMES=N for N)'
	@echo 'make refusals  tries the mutants, which the prover has to refuse (CRATE=NAME for one crate)'
	@echo 'make bench     measures the drill, its parts, the store, the ledger, the engine and the server, and writes the tables of docs/MEASURES.md'
	@echo 'make soak      kills a coordinator 200 times and 50 migrations, and looks for what was lost (ROUNDS=N for N kills)'
	@echo 'make soak-door soaks the coordinator, the proxy and 64 members in C, Go and Python for 30 minutes, each killed at random (MINUTES=N)'
	@echo 'make soak-fence  kills and pauses eight workers over a database behind a fence, and puts the store back: no item may be taken twice (MINUTES=N, 10)'
	@echo 'make powercut  cuts the power of ext4, xfs, btrfs and f2fs under the program in a virtual machine, 2,000 times each (IMAGES=N)'
	@echo 'make instances     a trial build whose instances are short, which change in the midst of resets: kills it there 100 times (ROUNDS=N)'
	@echo 'make takeover  a coordinator on a replicated volume of three hosts, each in namespaces; hosts and bricks are lost'
	@echo 'make sweep     refuses each allocation of every test and of the programs in turn, for 12 seconds each (EACH=N for N, 0 for all)'
	@echo 'make nightly   what is too long for make test (powercut, soak-door, soak-fence, a fuzzer, soak, instances, services, load, takeover, sweep, refusals), with a line for each in docs/nightly.tsv'
	@echo 'make install   copies the program, resetctl, the client library, examples, documents and manual pages below PREFIX (/usr/local); make uninstall takes them away (with PROGRAM=bin/resetd-trial the trial build)'
	@echo 'make deb       builds a Debian package of all that with dpkg-deb'
	@echo 'make release   makes what a release has in dist/, of the file LOG into which make test has printed (without one of the trial build)'
	@echo 'make help      prints this'

demo:
	@tools/demo

drill:
	@tools/drill

trial:
	@tools/program --trial > /dev/null

example:
	@program=$$(tools/program) && RESETD=$$program examples/run

services:
	@program=$$(tools/program) && export RESETD=$$program && \
	  python3 -m unittest discover -s client/tests && tools/test_services

soak:
	@program=$$(tools/program) && tools/soak --program $$program --rounds $(or $(ROUNDS),200)

instances:
	@tools/soak --instances 32 --rounds $(or $(ROUNDS),100)

soak-door: $(PROGRAM) $(PROXY) $(LIBRARY)/libresetd_member.a
	@tools/soak_door --program $(PROGRAM) --proxy $(PROXY) --library $(LIBRARY) --minutes $(or $(MINUTES),30)

soak-fence: $(PROGRAM) $(PROXY)
	@tools/soak_fence --program $(PROGRAM) --proxy $(PROXY) --minutes $(or $(MINUTES),10)

powercut: $(PROGRAM)
	@tools/powercut/run --program $(PROGRAM) --jobs $(JOBS) --images $(or $(IMAGES),2000)

takeover: bin/resetd
	@tools/takeover

build:
	@if [ -x bin/resetd ] && [ -x bin/resetd-proxy ] && [ -z "$$(find crates crates.txt HANDLES -newer bin/resetd -type f -not -path '*/out/*' -print -quit)" ]; then \
	  echo 'bin/resetd is newer than every source: nothing is proved again (remove it to have that)'; \
	else \
	  $(MAKE) --no-print-directory prove; \
	fi

check:
	@tools/check --jobs $(JOBS) $(CRATE)

prove:
	rt all check --jobs $(JOBS)
	cd crates/resetd && rt run -- drill < stdin
	cd crates/resetd_proxy && rt run -- check ../../examples/proxy.toml
	mkdir -p bin
	cp crates/resetd/out/resetd bin/resetd
	cp crates/resetd_proxy/out/resetd_proxy bin/resetd-proxy

lib:
	@JOBS=$(JOBS) tools/member_library $(PREFIX)

refusals:
	refusals/run --jobs $(JOBS) $(CRATE)

bench: build
	bench/run bin/resetd
	bench/around bin/resetd

sweep:
	bench/refused_allocations --seconds $(or $(EACH),12) units resetd

nightly: $(PROGRAM) $(PROXY) $(LIBRARY)/libresetd_member.a
	@tools/nightly --program $(PROGRAM) --proxy $(PROXY) --library $(LIBRARY) --jobs $(JOBS) --images $(or $(IMAGES),2000)

test:
	@tools/layers
	@tools/forms
	@tools/crates_picture --check
	rt ci
	mkdir -p bin
	cp crates/resetd/out/resetd bin/resetd
	cp crates/resetd_proxy/out/resetd_proxy bin/resetd-proxy
	@RESETD=$(CURDIR)/bin/resetd RESETD_PROXY=$(CURDIR)/bin/resetd-proxy tests/run

program:
	@tests/run

load:
	@tools/test_under_load --times $(or $(TIMES),10)

SHARE = $(DESTDIR)$(PREFIX)/share/resetd
BASH_COMPLETIONS = $(DESTDIR)$(PREFIX)/share/bash-completion/completions
ZSH_COMPLETIONS = $(DESTDIR)$(PREFIX)/share/zsh/vendor-completions

# What stands below share/resetd has the places of the repository, so that each part finds the others. What an earlier
# version had of resetd-front is removed.
install: $(PROGRAM) $(PROXY) $(if $(wildcard lib/libresetd_member.so),install-lib)
	install -D -m 755 $(PROGRAM) $(DESTDIR)$(PREFIX)/bin/resetd
	install -D -m 755 $(PROXY) $(DESTDIR)$(PREFIX)/bin/resetd-proxy
	install -d $(SHARE)/client/resetd_client/control $(SHARE)/client/resetd_page $(SHARE)/tools/picture $(SHARE)/examples $(SHARE)/docs
	install -m 755 client/resetctl client/resetd-page $(SHARE)/client/
	install -m 644 client/pyproject.toml client/build_wheel.py $(SHARE)/client/
	install -m 644 client/resetd_client/*.py client/resetd_client/py.typed $(SHARE)/client/resetd_client/
	install -m 644 client/resetd_client/control/*.py $(SHARE)/client/resetd_client/control/
	install -m 644 client/resetd_page/*.py client/resetd_page/py.typed client/resetd_page/page.html $(SHARE)/client/resetd_page/
	install -m 755 tools/wave tools/container $(SHARE)/tools/
	install -m 644 tools/picture/*.py $(SHARE)/tools/picture/
	install -m 755 examples/ask examples/gateway examples/local_check examples/member examples/plain_member examples/run examples/service examples/talk examples/worker $(SHARE)/examples/
	install -m 644 examples/coordinator.py examples/ring.toml examples/proxy.toml examples/haproxy.cfg examples/resetd.logrotate examples/resetd.rules.yml examples/resetd.grafana.json examples/kubernetes.yaml $(SHARE)/examples/
	for unit in examples/*.service examples/*.timer examples/*.socket; do sed 's|/usr/local/bin/|$(PREFIX)/bin/|' $$unit > $(SHARE)/$$unit; chmod 644 $(SHARE)/$$unit; done
	install -m 644 docs/OPERATING.md docs/TAKEOVER.md docs/FORMATS.md docs/SERVICES.md docs/PROTOCOL.md docs/PROXY.md docs/COMPARISON.md docs/QUEUES.md docs/DEPLOYING.md docs/member-vectors.json docs/*.svg $(SHARE)/docs/
	install -m 644 CHANGELOG.md $(SHARE)/
	install -m 755 examples/account examples/certificates examples/hello examples/hello.sh examples/one_for_all $(SHARE)/examples/
	install -m 644 examples/pair.toml $(SHARE)/examples/
	install -d $(SHARE)/examples/members
	install -m 644 $(addprefix examples/members/,plain_member.go proxy.go files.go) $(SHARE)/examples/members/
	for unit in resetd-member@.service resetd-proxy.service; do sed 's|/usr/local/|$(PREFIX)/|' examples/$$unit > $(SHARE)/examples/$$unit; done
	ln -sfn ../share/resetd/client/resetctl $(DESTDIR)$(PREFIX)/bin/resetctl
	ln -sfn ../share/resetd/client/resetd-page $(DESTDIR)$(PREFIX)/bin/resetd-page
	install -d $(BASH_COMPLETIONS) $(ZSH_COMPLETIONS)
	client/resetctl completion bash > $(BASH_COMPLETIONS)/resetctl
	client/resetctl completion zsh > $(ZSH_COMPLETIONS)/_resetctl
	install -D -m 644 docs/resetd.8 $(DESTDIR)$(PREFIX)/share/man/man8/resetd.8
	install -D -m 644 docs/resetctl.8 $(DESTDIR)$(PREFIX)/share/man/man8/resetctl.8
	install -D -m 644 docs/resetd-proxy.8 $(DESTDIR)$(PREFIX)/share/man/man8/resetd-proxy.8
	rm -rf $(SHARE)/client/resetd-front $(SHARE)/client/resetd_front $(DESTDIR)$(PREFIX)/bin/resetd-front $(DESTDIR)$(PREFIX)/share/man/man8/resetd-front.8

# The members' library, where make lib has made it. A trial build of it is never installed.
install-lib:
	@if grep -q resetd_member-trial lib/libresetd_member.so lib/libresetd_member.a; then \
	  echo 'lib/ has a trial build, of which nothing is proved: make lib makes the proved library' >&2; exit 1; \
	fi
	install -D -m 644 lib/libresetd_member.a $(DESTDIR)$(PREFIX)/lib/libresetd_member.a
	install -D -m 644 lib/libresetd_member.so $(DESTDIR)$(PREFIX)/lib/libresetd_member.so
	install -D -m 644 lib/resetd_member.h $(DESTDIR)$(PREFIX)/include/resetd_member.h
	sed 's|^prefix=.*|prefix=$(PREFIX)|' lib/resetd_member.pc > lib/resetd_member.pc.new
	install -D -m 644 lib/resetd_member.pc.new $(DESTDIR)$(PREFIX)/lib/pkgconfig/resetd_member.pc
	rm lib/resetd_member.pc.new
	install -d $(SHARE)/examples/members
	install -m 644 $(addprefix examples/members/,member.c member.rs resetd_member.rs member.go resetd_member.go) $(SHARE)/examples/members/

deb: $(PROGRAM) $(PROXY)
	@PROGRAM=$(PROGRAM) PROXY=$(PROXY) tools/deb

release:
	@tools/release $(or $(LOG),--trial)

bin/resetd:
	@echo 'there is no proved program yet: make build makes it in about an hour.' >&2
	@echo 'To go on with a trial build, of which nothing is proved: make trial, and then PROGRAM=bin/resetd-trial after this' >&2
	@exit 1

lib/libresetd_member.a:
	@echo 'there is no proved library of the members yet: make lib makes it.' >&2
	@exit 1

bin/resetd-proxy:
	@echo 'there is no proved proxy yet: make build makes it with the program.' >&2
	@exit 1

bin/resetd-trial:
	@tools/program --trial > /dev/null

bin/resetd-proxy-trial:
	@tools/program --trial resetd-proxy > /dev/null

uninstall:
	rm -f $(DESTDIR)$(PREFIX)/bin/resetd $(DESTDIR)$(PREFIX)/bin/resetd-proxy $(DESTDIR)$(PREFIX)/bin/resetctl $(DESTDIR)$(PREFIX)/bin/resetd-page
	rm -f $(foreach page,resetd resetctl resetd-proxy,$(DESTDIR)$(PREFIX)/share/man/man8/$(page).8)
	rm -f $(BASH_COMPLETIONS)/resetctl $(ZSH_COMPLETIONS)/_resetctl
	rm -f $(foreach file,lib/libresetd_member.a lib/libresetd_member.so lib/pkgconfig/resetd_member.pc include/resetd_member.h,$(DESTDIR)$(PREFIX)/$(file))
	rm -rf $(SHARE)
