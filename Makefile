# the hub, the supplier, the moment of the mail and the number of its first text
EXAMPLE = 5412345000006 4012345500004 1748942400 1
PROVED = crates/edihub/out/edihub
SCRIPT = crates/trial_script/out/trial_script

.PHONY: run runnable day serve free-port page page-test page-pictures try case test wrong split-commit hostile fuzz year crowd front-test worst
.PHONY: hubs bench
.PHONY: join-test edihub trial_script install uninstall deb deb-test boot-test clean

# The main job: the example's ORDERS interchange becomes the supplier's mailbox interchange; first from a build without any proof, then
# proved. The small program that does only this, as `edihub relay` does it, uses six crates.
run:
	python3 -m tests.relay_first $(EXAMPLE)

# The program that `make day`, `make serve` and `make page` run: the proved one, or with UNPROVED=1 a build without any proof, which takes
# some minutes, is much slower, and is kept until a crate changes.
ifeq ($(UNPROVED),1)
RUNNABLE = crates/edihub/out/try/edihub
LABEL = "Nothing of this program is proved: it is a build for trying, which checks each access as it runs, and is slower."
runnable:
	@echo $(LABEL)
	@python3 -m tests.unproved_build edihub
else
RUNNABLE = ./edihub
LABEL =
runnable: edihub
endif

# A hub with the orders of the example day, and its page, without any proof: the address and the keys are printed, ^C ends it, and nothing
# is left behind. On a fresh clone it takes some minutes to build, with two processors.
try:
	@$(MAKE) --no-print-directory page UNPROVED=1

# Some days of one retailer with two suppliers and a third that joins, over a database file in a temporary folder.
day: runnable
	sh examples/day/day.sh $(RUNNABLE)
	$(if $(LABEL),@echo $(LABEL))

# A hub founded with the example register, on port 8080 of 127.0.0.1, over a database file in a temporary folder, for 1,000
# connections; ^C ends it. `make serve PORT=8081 COUNT=10` takes another port, and as many connections.
PORT = 8080
COUNT = 1000

serve: runnable
	folder=$$(mktemp -d) && trap 'rm -rf "$$folder"' EXIT && \
		$(RUNNABLE) init --register examples/register.toml --db "$$folder/hub.db" && trap : INT && \
		{ $(RUNNABLE) serve --db "$$folder/hub.db" --port $(PORT) --count $(COUNT) || case $$? in 1|3|130) ;; *) exit 1 ;; esac; }
	$(if $(LABEL),@echo $(LABEL))

# The page, only for trying: a hub of the example register with the orders of the example day, and a proxy in front of it that serves the
# page. ^C ends it. `make page PAGE_PORT=8001` takes another port.
PAGE_PORT = 8000

free-port:
	@python3 examples/page/try.py --port $(PAGE_PORT)

page: free-port runnable
	@python3 examples/page/try.py $(RUNNABLE) $(PAGE_PORT) $(LABEL)

# Tests the page in headless Chromium and Firefox and its readers in Node, some minutes, not part of the gate; and makes its pictures again.
page-test: edihub
	python3 -m tests.page.test ./edihub

page-pictures: edihub
	python3 -m tests.page.pictures ./edihub docs/page
	python3 -m tests.page.days ./edihub docs/page

# Proves and builds the program, with a line for each crate. What has not changed is not proved again.
edihub:
	python3 -m tests.prove edihub --help
	cp $(PROVED) edihub

# Proves and builds the program that plays scripts on a hub and tests calls, for trials.
trial_script:
	python3 -m tests.prove trial_script

# Runs cases on an unproved `edihub` or `trial_script`, of one group or with some words in their names: make case OF=orders WORDS=QTY
case:
	python3 -m tests.unproved $(OF) $(WORDS)

# Puts the program that `make edihub` left into PREFIX, with its man page, completions for bash, units, scripts, the page, documents and
# examples; install/place.py has the list: make install PREFIX=/usr
PREFIX = /usr/local
PROGRAM = ./edihub

install:
	test -x $(PROGRAM) || { echo "make edihub first" >&2; exit 1; }
	python3 install/place.py put $(PROGRAM) "$(DESTDIR)" "$(PREFIX)"

uninstall:
	python3 install/place.py take "$(DESTDIR)" "$(PREFIX)"

# A Debian package of the same, in out/.
deb:
	python3 install/deb.py $(PROGRAM) out

# Checks the package by lintian and in fresh Debian 12 trees, some minutes, as root; not part of the gate.
deb-test:
	python3 -m tests.deb $(PROGRAM)

# Boots a fresh Debian 12 and has the package's units do their work, some minutes, as root; not part of the gate.
boot-test:
	python3 -m tests.booted $(PROGRAM)

# The gate, and then the end-to-end tests of the program that the gate built.
test:
	python3 -m tests.test

# Tries the wrong bodies and wrong definitions of all crates, or of one: make wrong CRATE=edi_goods
wrong:
	python3 -m tests.wrong $(CRATE)

# Checks that the trial of a machine that stops finds a commit in two transactions, which the contracts refuse: some minutes.
split-commit:
	python3 -m tests.split_commit

# Kills, full disks, damaged files and refused memory, for some minutes; not part of the gate.
hostile: edihub trial_script
	python3 -m tests.hostile $(PROVED) $(SCRIPT)

# Gives the program valid inputs that were then changed: make fuzz SEED=2 NUMBER=10000
SEED = 1
NUMBER = 100000

fuzz: edihub
	python3 -m tests.fuzz $(PROVED) $(SEED) $(NUMBER)

# A retailer's year with 1,000 suppliers over HTTP, each answer compared with the right one: ORDERS=100000 for a whole one, which takes
# 1 GB in TMPDIR.
ORDERS = 10000

year: edihub
	python3 -m bench.year $(PROVED) $(ORDERS)

# 1,000 suppliers at once, through HAProxy as examples/front has it; not part of the gate.
crowd: edihub
	python3 -m bench.crowd $(PROVED)

# Slow readers, slow senders, guessed keys and 1,000 suppliers at once, through nginx and HAProxy as examples/front has them, some minutes;
# not part of the gate. READ=2000 gives the long status fewer lines.
READ = 180000

front-test: edihub
	python3 -m bench.front $(PROVED) 1000 $(READ)

# Measures the most expensive requests beside a typical upload, some 4 minutes; not part of the gate. LONG=--long: in full.
LONG =

worst: edihub
	python3 -m bench.worst $(PROVED) $(LONG)

# Asks one hub, and three behind HAProxy as examples/hubs has them, the same; not part of the gate.
hubs: edihub
	python3 -m tests.three_hubs $(PROVED)

# Suppliers keep asking through HAProxy while another one is registered, some minutes; not part of the gate. LINES="100000 1000000"
# does it in hubs with this many order lines.
LINES =

join-test: edihub
	python3 -m bench.live_join $(PROVED) $(LINES)

bench: edihub trial_script
	python3 -m bench ./edihub $(SCRIPT)

clean:
	rm -rf edihub crates/*/out
