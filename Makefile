# make run: the main job on a sample. make test: the gate. make bench: one table of what things cost: carwatch beside the
# same job in plain Rust, the monitor's calls, the last gate. make play: carwatch against the slow reading, on
# random inputs. make plant: bugs planted one at a time in a crate, and what refused each.
.PHONY: run test bench play plant

# the program that does the main job, and its sample
MAIN = carwatch

run:
	@cd crates/$(MAIN) && rt run < stdin 2> ../../run.log || { cat ../../run.log; exit 1; }

test:
	@bash .ci/run

# the programs that measure
BENCHES = memory_bench engine_bench

# proves and builds these programs
built = for p in $(1); do (cd crates/$$p && rt run < /dev/null > ../../run.log 2>&1) || { cat run.log; exit 1; }; done

bench:
	@$(call built,$(BENCHES) $(MAIN))
	@python3 bench/table.py

# how many random inputs, and from which seed
COUNT = 300
SEED = 1

play:
	@$(call built,$(MAIN))
	@python3 tools/play.py $(COUNT) $(SEED)

# the crate to plant bugs in, and how many in a function at most
CRATE = share
MOST = 8

plant:
	@python3 tools/plant.py --most $(MOST) $(CRATE)
