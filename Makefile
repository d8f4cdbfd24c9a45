# The front door. `make test` is the gate; see README.md.
.PHONY: test run clearing bench compare soak release verify moved mutants

test:
	@sh tools/test.sh

# A session file: FILE, or standard input. The shell takes the name from the environment, so that any name will do.
run:
	@sh tools/run.sh run replay "$$FILE"

# The same in a session that keeps the square, and then who owes whom.
clearing:
	@sh tools/run.sh clearing clearing "$$FILE"

# What a call costs: docs/BENCHMARKS.md.
bench:
	@sh tools/bench.sh

# The engine's programs against the second one: the fixed set, and as many seeds as one likes (make soak N=100000).
compare:
	@sh tools/compare.sh

soak:
	@sh tools/compare.sh "$${N:-10000}"

# A folder for customers, DIR or release/, of a commit that passed the gate; and whether such a folder is this tree's.
release:
	@sh tools/release.sh "$$DIR"

verify:
	@sh tools/verify.sh "$$DIR"

# What moved since the commit FROM, crate by crate, by name and in seconds: the skeleton of a note in docs/CHANGES.md.
moved:
	@sh tools/moved.sh "$$FROM"

# One token changed at a time, in a copy: what does the check take? All crates, or CRATES="price queue"; by SEED, N of each: docs/MUTANTS.md.
mutants:
	@python3 tools/mutants.py $$CRATES
