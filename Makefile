# The k-mer counter: `make` builds the programs and counts the example, `make count` builds ./kmc alone and does that, `make check` is
# the gate.
KMC := ./kmc
KMC_MERGE := ./kmc_merge
KMC_CUT := ./kmc_cut
KMC_LIST := ./kmc_list
KMC_DB := ./kmc_db
# the programs of users
PROGRAMS = $(KMC) $(KMC_MERGE) $(KMC_CUT) $(KMC_LIST) $(KMC_DB)
# what the scripts in bench/ try beside them
HOSTILE := ./try_hostile

# where `make install` puts the programs and their pages, and under which names: Debian's `kmc` is KMC 3
PREFIX := /usr/local
NAME := futoncrane-kmc
MERGE_NAME := futoncrane-kmc-merge
CUT_NAME := futoncrane-kmc-cut
LIST_NAME := futoncrane-kmc-list
DB_NAME := futoncrane-kmc-db
BIN = $(DESTDIR)$(PREFIX)/bin
MAN = $(DESTDIR)$(PREFIX)/share/man/man1

.PHONY: all count check test tests-user install uninstall dist fuzz hostile damaged devices limits threads bench results refusals options merges clean

# all programs in one call, since most of what they stand on is the same
all:
	$(call built,kmc kmc_merge kmc_cut kmc_list kmc_db)
	@$(MAKE) --no-print-directory count

# call built,CRATES: what the programs stand on is proved, several libraries at a time, then they are, and are built
define built
	@echo "make: proving and building $(1) (some minutes the first time)"
	@build/program.py $(1)
	@for name in $(1); do cp crates/$$name/out/$$name ./$$name; done
endef

SOURCES := crates.txt $(shell find crates -path '*/out' -prune -o -type f -name '*.rt' -print -o -type f -name '*.antt' -print)

$(PROGRAMS) $(HOSTILE): ./%: $(SOURCES)
	$(call built,$*)

count: $(KMC)
	@$(KMC) < examples/reads.fastq > examples/.counted
	@cmp examples/.counted examples/reads.dump
	@rm -f examples/.counted
	@echo "make: examples/reads.fastq has $$(wc -l < examples/reads.dump) k-mers, as examples/reads.dump lists them"

# as many checks side by side as there are processors and 5 GB of memory, each by one process: several processes for one check take
# more processor time in all. The allocator of a check keeps what is freed, in place of giving it back and asking for it again
CHECKS = $(shell awk -v n=$$(nproc) '/^MemAvailable/ { m = int($$2 / 5000000); m = m < n ? m : n; print m < 1 ? 1 : m }' /proc/meminfo)

check:
	RT_JOBS=$(CHECKS) MIMALLOC_PURGE_DELAY=-1 rt ci

# the tests of users: the command futoncrane, and the programs, as people call them
tests-user: $(PROGRAMS)
	@tests_user/run.py

# what a newcomer runs behind `make`, in some minutes: the tests of users, and a thousand random texts and options, each answer against a
# plain count. It shows that these programs do on this machine what they are said to; that they do so always is what `make check` proves
test: tests-user
	KMC="$(abspath $(KMC))" bench/fuzz.py --seed $(SEED) --tries 1000

# call installed,FILE,PAGE,NAME: the program, and its page, which then speaks of the names of this installation
RENAMED = s/^\.Xr kmc 1/.Xr $(NAME) 1/; s/^\.Xr kmc_merge 1/.Xr $(MERGE_NAME) 1/; s/^\.Xr kmc_cut 1/.Xr $(CUT_NAME) 1/; \
	s/^\.Xr kmc_list 1/.Xr $(LIST_NAME) 1/; s/^\.Xr kmc_db 1/.Xr $(DB_NAME) 1/; \
	/^\.Dl/ { s/\<kmc_merge /$(MERGE_NAME) /; s/\<kmc_cut /$(CUT_NAME) /; s/\<kmc_list /$(LIST_NAME) /; s/\<kmc_db /$(DB_NAME) /; s/\<kmc -/$(NAME) -/ }
define installed
	install -m 755 $(1) "$(BIN)/$(3)"
	sed 's/^\.Nm $(2)$$/.Nm $(3)/; s/^\.Dt [A-Z_]* /.Dt $(3) /; $(RENAMED)' docs/$(2).1 > "$(MAN)/$(3).1"
	chmod 644 "$(MAN)/$(3).1"
endef

install: $(PROGRAMS)
	build/lay_out.sh --folders "$(DESTDIR)$(PREFIX)"
	$(call installed,$(KMC),kmc,$(NAME))
	$(call installed,$(KMC_MERGE),kmc_merge,$(MERGE_NAME))
	$(call installed,$(KMC_CUT),kmc_cut,$(CUT_NAME))
	$(call installed,$(KMC_LIST),kmc_list,$(LIST_NAME))
	$(call installed,$(KMC_DB),kmc_db,$(DB_NAME))
	build/lay_out.sh "$(DESTDIR)$(PREFIX)" "kmc=$(NAME)" "kmc_merge=$(MERGE_NAME)" "kmc_cut=$(CUT_NAME)" "kmc_list=$(LIST_NAME)" "kmc_db=$(DB_NAME)"

uninstall:
	rm -f $(foreach name,$(NAME) $(MERGE_NAME) $(CUT_NAME) $(LIST_NAME) $(DB_NAME),"$(BIN)/$(name)" "$(MAN)/$(name).1")
	build/lay_out.sh --remove "$(DESTDIR)$(PREFIX)"

# an archive and a Debian package that need neither the kit nor a compiler; build/try_dist.sh tries both in an empty root
dist: $(PROGRAMS)
	build/dist.sh

# docs/HOSTILE.md tells what these six try; each takes some minutes. `make fuzz SEED=2` tries other texts
SEED := 1

fuzz: $(KMC)
	KMC="$(abspath $(KMC))" bench/fuzz.py --seed $(SEED)

hostile: $(KMC) $(HOSTILE)
	KMC="$(abspath $(KMC))" HOSTILE="$(abspath $(HOSTILE))" bench/hostile.py

damaged: $(HOSTILE)
	HOSTILE="$(abspath $(HOSTILE))" bench/damaged.py --seed $(SEED)

devices: $(KMC)
	KMC="$(abspath $(KMC))" bench/devices.py

limits: $(KMC)
	KMC="$(abspath $(KMC))" bench/system_limits.sh

threads: $(KMC) $(HOSTILE)
	@cd crates/test_queue && rt test > out.log 2>&1 || { cat out.log; rm -f out.log; exit 1; }
	@rm -f crates/test_queue/out.log
	KMC="$(abspath $(KMC))" HOSTILE="$(abspath $(HOSTILE))" bench/hostile_threads.sh

bench: $(PROGRAMS)
	bench/compare.sh
	bench/slices.sh

# measures all that documents tell, and writes it into bench/RESULTS.md, README.md and docs/DESIGN.md; `make results ONLY="kmc3 memory"`
# measures these sections alone
ONLY :=

results: $(PROGRAMS) $(HOSTILE)
	bench/results.py $(ONLY)

# docs/REFUSALS.md against the code: the number, text and exit status of each refusal
refusals:
	bench/refusals.py

# usage lines, help texts and docs/*.1 against the tables of kmc_options: the options of each program, with their ranges and defaults
options:
	bench/options.py

# random splits of random reads, against a plain count of all reads; and the time of a merge beside that of sort -m
merges: $(KMC_MERGE)
	bench/merge.py --seed $(SEED)
	bench/merge_time.sh

clean:
	rm -rf crates/*/out $(PROGRAMS) $(HOSTILE)
