# The project's commands; README.md says what they are for.
.PHONY: worked independent test programs library corpus fuzz fuzz-texts bench

tally = independent/build/tally

# The verified programs, as rt builds them, and what goes before a run of one.
RUNNER = target/bin/runner
CORPUS = target/bin/corpus
TEXT_CORPUS = target/bin/texts
WCNF2REC = target/bin/wcnf2rec
RUN =

# How many seeds are compared, runs or texts, and the first one; without one the clock chooses.
SEEDS = 10000
TEXTS = 10000
FIRST =

# The worked run of the description, each answer line with its meaning beside it.
worked: independent
	@$(tally) assemble < independent/worked.txt | $(tally) explain

independent:
	@$(MAKE) --silent --no-print-directory -C independent

# The independent program first, since it takes seconds; then everything is proved.
test: independent
	@$(MAKE) --silent --no-print-directory -C independent test
	@sh tools/stored.sh check $(tally)
	@RUN='$(RUN)' sh tools/gate.sh

# The verified programs in target/bin.
programs:
	@sh tools/programs.sh

# The static library for C, proved and built, with the programs of examples/ on it.
library:
	@RUN='$(RUN)' sh tools/library.sh

# Writes again what the verified programs read and what they have to print.
corpus: independent
	@sh tools/stored.sh write $(tally)

# The verified programs against the independent one, on fresh seeds and in time.
fuzz: independent
	@RUN='$(RUN)' sh tools/fuzz.sh $(tally) $(RUNNER) $(CORPUS) $(SEEDS) $(FIRST)

fuzz-texts: independent
	@RUN='$(RUN)' sh tools/fuzz-texts.sh $(tally) $(TEXT_CORPUS) $(WCNF2REC) $(RUNNER) $(TEXTS) $(FIRST)

bench: independent
	@RUN='$(RUN)' sh tools/bench.sh $(tally) $(RUNNER)
