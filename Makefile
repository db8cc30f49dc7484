# All but examples, claims, embed-test and what installs want `rt`, of the kit that README.md names.
#
# make demo        replays an example, unproved
# make build       proves and builds the program, and replays an example
# make examples    compares what the built program makes of all examples
# make quick       everything that runs without a proof: tests, programs, documents, C; ten minutes; python3, cc
# make test        the gate
# make gate-cost   the gate from nothing, on a machine that does nothing else, with what each crate costs; python3
# make cost        builds the program, and counts the instructions of a step; python3, valgrind
# make memory      the most memory that replays take, short and long; after `make build`; python3
# make claims      the documents against the sources, and where the program is built their command blocks; python3
# make libwlim     proves and makes the library for C, in out/libwlim, and holds its header against it; cc, binutils,
#                  python3
# make embed       also plays act lists and sessions through it, beside the program, which `make build` makes before;
#                  pkg-config, valgrind, cc with its sanitizers
# make embed-test  the glue of examples/embed over libwayland, and fcitx5 into real programs through a compositor with
#                  it; after `make libwlim`. Installs what it needs of Debian 12: as root, with a network
# make embed-speed a batch in that compositor beside sway, what an act takes of the library, and its size; after
#                  `make libwlim`. Installs as embed-test does; ends within five minutes
# make weston      the plug-in for Weston, out/weston/10/wlim.so; after `make libwlim`. make, cc, pkg-config,
#                  libweston-10-dev
# make weston-test it in a headless Weston, with real programs and fcitx5, then again under sanitizers. Installs as
#                  embed-test does; some ten minutes
# make gateway     builds out/gateway/wlim-gateway over the library; cc, pkg-config, python3
# make gateway-test  tests it beside sway, with programs and fcitx5, and prints its figures; after `make build` and
#                  `make libwlim`. Installs what it needs of Debian 12: as root, with a network
# make gateway-mutter-test  after it, types through the gateway beside GNOME's compositor
# make conformance  which text reaches which field at sway, Mir, Weston with the plug-in where it is built, the example
#                  compositor and the gateway: the table of docs/CONFORMANCE.md and a page; WLCS's tests of text inputs;
#                  faults that are planted. After `make build` and `make libwlim`. Installs as embed-test does
# make install     what is built, with its manual, completions and examples: PREFIX (/usr/local), DESTDIR, LIBDIR (lib).
#                  make uninstall takes it away. For the manual pandoc
# make man, docs   the manual, out/man, and documents and manual as pages, out/site; pandoc, python3
# make deb         what is built as packages of Debian, in out/deb; debhelper, pandoc
# make packaging-test  installs, takes away, completes, and what a changed header is told; after `make libwlim`
# make clean-machine-test  the packages in a fresh Debian 12, with sway, fcitx5 and foot; after `make deb`; mmdebstrap, as
#                  root, with a network
PROGRAM = crates/wlim/out/wlim
.PHONY: demo build examples quick test gate-cost cost memory claims libwlim embed embed-test embed-speed
.PHONY: weston weston-test gateway gateway-test gateway-mutter-test conformance
.PHONY: install uninstall man docs deb packaging-test clean-machine-test
export PREFIX DESTDIR LIBDIR
demo:
	cd crates/wlim && rt try -- replay-acts < ../../examples/one_string.acts

build:
	cd crates/wlim && rt run -- replay < ../../examples/one_batch.session

examples:
	tests/examples.sh crates/wlim/out/wlim

quick:
	python3 tools/quick.py

test:
	rt ci

gate-cost:
	python3 tools/gate_cost.py

cost:
	cd crates/wlim && rt run -- replay < ../../examples/one_batch.session > /dev/null
	python3 tools/cost.py

memory:
	python3 tools/memory.py

claims:
	python3 tools/claims.py $(if $(wildcard $(PROGRAM)),--program $(PROGRAM))
	python3 tools/packaged.py

libwlim:
	cd crates/c_library && rt lib
	tools/libwlim.sh

embed: libwlim
	tests/embed.sh crates/wlim/out/wlim

embed-test:
	tests/embed_needs.sh
	tests/embed_glue.sh
	tests/embed_programs.sh

weston:
	$(MAKE) -C modules/weston

weston-test:
	tests/embed_needs.sh gcc make pkg-config libwayland-dev libwayland-bin wayland-protocols libxkbcommon-dev libgtk-4-dev \
		weston libweston-10-dev foot fonts-dejavu-core fonts-noto-cjk fcitx5 fcitx5-pinyin dbus firefox-esr procps
	tests/weston.sh

gateway:
	gateway/build.sh out/gateway

gateway-test:
	tests/gateway_needs.sh
	tests/gateway.sh crates/wlim/out/wlim

gateway-mutter-test:
	tests/gateway_mutter.sh

embed-speed:
	tests/embed_needs.sh gcc binutils pkg-config libwayland-dev libwayland-bin wayland-protocols libwlroots-dev \
		libxkbcommon-dev sway valgrind
	timeout -k 10 300 tests/embed_speed.sh

conformance:
	tests/conformance_needs.sh
	conformance/all.sh --table
	conformance/wlcs/run.sh out/conformance
	tests/conformance_checked.sh
	tests/conformance_faults.py

man:
	rm -rf out/man
	python3 tools/manual.py out/man

docs:
	python3 tools/site.py out/site

install:
	@if command -v pandoc > /dev/null; then $(MAKE) --no-print-directory man; fi
	packaging/install.sh install

uninstall:
	packaging/install.sh uninstall

deb: man
	packaging/deb.sh

packaging-test:
	tests/packaging.py

clean-machine-test:
	tests/clean_machine.sh
