# The two commands that a newcomer needs:
#   make plan       prints the plan of an example ticket, or of TICKET=file
#   make test       passes everything: the gate (proofs, wrong versions, test programs), the examples, the library from Rust
# For reviewers:
#   make join       joins FIRST=file and SECOND=file, two halves of a survey, into one ticket on standard output
# For field engineers:
#   make hub        writes the read ticket of a field hub's frames to standard output, from POOL, PATTERNS and CAMERAS
# For support:
#   make explain    says in words what TICKET=file asks for, or where its refusal stands, and checks the plan beside it or PLAN=file
# For those who link the library:
#   make firmware   builds target/lib/libdockplan.a and runs four small callers in C, the first one on TICKET
#   make install    copies header, archive and a pkg-config file to PREFIX
#   make host       compares every call of the library, from Rust, with an implementation of its own
#   make bench      measures the library against C and Rust, by time and by instructions

TICKET = examples/first.ticket
FIRST = examples/half_1.ticket
SECOND = examples/half_2.ticket
POOL = 15
PATTERNS = 0 4
CAMERAS = 0 0 0 1 0 1 1 0 0 1 1 1
PREFIX = /usr/local
LIBRARY = target/lib/libdockplan.a
CARGO = cd host && CARGO_TARGET_DIR=../target/host cargo
CC_WARNED = $(CC) -std=c99 -O2 -Wall -Wextra -Wpedantic -Iinclude

.PHONY: plan test examples program join hub explain firmware install host bench

plan: program
	@target/bin/dockplan < $(TICKET)

test:
	@.ci/run
	@echo "gate: every crate is proved, every wrong version was refused, every test program printed what it must"
	@$(MAKE) --no-print-directory examples
	@$(MAKE) --no-print-directory host
	@echo "host: every call of the library answered as the implementation in Rust does"

# what the program prints for each example ticket, compared with the plan beside it
examples: program
	@for t in examples/*.ticket; do \
	  target/bin/dockplan < $$t | cmp - $${t%.ticket}.plan || exit 1; \
	done; echo "examples: the program printed the plan beside each of the $$(ls examples/*.ticket | wc -l) tickets"

# proves the program and what it stands on, and builds it, by a run on no input; the first time takes some minutes
program:
	@out=$$(cd crates/dockplan && rt run < /dev/null 2>&1) || { echo "$$out"; exit 1; }
	@mkdir -p target/bin && cp crates/dockplan/out/dockplan target/bin/dockplan

# the same for the library, which is built again when a file of a crate has changed
$(LIBRARY): crates.txt $(shell find crates -name out -prune -o '(' -name '*.rt' -o -name '*.antt' ')' -print)
	@out=$$(cd crates/firmware_c && rt lib 2>&1) || { echo "$$out"; exit 1; }
	@mkdir -p $(dir $@) && cp crates/firmware_c/out/libfirmware_c.a $@

firmware: $(LIBRARY)
	@$(CC_WARNED) examples/firmware.c $(LIBRARY) -o target/firmware
	@$(CC_WARNED) examples/saver.c $(LIBRARY) -o target/saver
	@$(CC_WARNED) examples/join.c $(LIBRARY) -o target/join
	@$(CC_WARNED) examples/hub.c $(LIBRARY) -o target/hub
	@target/firmware < $(TICKET)
	@echo "and saved as they come, cards 0 0 1 with a pool of 2:"
	@echo 0 0 1 | target/saver 2 2
	@target/join examples/half_1.ticket examples/half_2.ticket | cmp - examples/joined.ticket
	@echo "and two halves of a survey joined into examples/joined.ticket"
	@echo 0 0 0 1 0 1 1 0 0 1 1 1 | target/hub 15 0 4 | cmp - examples/hub.ticket
	@echo "and the frames of two cameras gathered into examples/hub.ticket"

# nothing but the joined ticket goes to standard output
join: $(LIBRARY)
	@$(CC_WARNED) examples/join.c $(LIBRARY) -o target/join
	@target/join $(FIRST) $(SECOND)

# nothing but the ticket goes to standard output; PATTERNS has a pattern for each camera, CAMERAS a camera for each frame
hub: $(LIBRARY)
	@$(CC_WARNED) examples/hub.c $(LIBRARY) -o target/hub
	@echo $(CAMERAS) | target/hub $(POOL) $(PATTERNS)

# the version stands in the header; DESTDIR goes before PREFIX for those who make packages
install: $(LIBRARY)
	@install -d $(DESTDIR)$(PREFIX)/include $(DESTDIR)$(PREFIX)/lib/pkgconfig
	@install -m 644 include/dockplan.h $(DESTDIR)$(PREFIX)/include
	@install -m 644 $(LIBRARY) $(DESTDIR)$(PREFIX)/lib
	@version=$$(awk '/define DOCKPLAN_VERSION /{printf "%d.%d", $$3 / 100, $$3 % 100}' include/dockplan.h); \
	sed -e "s|@PREFIX@|$(abspath $(PREFIX))|" -e "s|@VERSION@|$$version|" include/dockplan.pc.in \
	  > $(DESTDIR)$(PREFIX)/lib/pkgconfig/dockplan.pc; \
	echo "install: header, archive and dockplan.pc of version $$version in $(DESTDIR)$(PREFIX)"

host: $(LIBRARY)
	@$(CARGO) test --release --offline --quiet -- --nocapture

bench: $(LIBRARY)
	@$(CARGO) run --release --offline --quiet --bin bench

# without PLAN, the file NAME.plan beside NAME.ticket, if there is one; where the command ends with 1, make ends with 2
explain: $(LIBRARY)
	@$(CARGO) build --release --offline --quiet --bin explain
	@target/host/release/explain $(TICKET) $(PLAN)
