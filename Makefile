# make test: the gate. See README.md for the other commands.
.PHONY: test
test:
	tools/gate

# Four crates alone, up to format of the block table, the first public call: layout, proofs and must-fail edits. A first look.
.PHONY: house
house:
	rt ci words order links fat_node

# Against the Rust: the long comparison, with a new seed or SEED=number.
.PHONY: oracle bench
oracle:
	cd oracle && cargo run --offline --release --quiet -p compare -- long $(SEED)
# The library beside the original and plain Rust at its best, in one run, which rewrites its tables and drawing in docs/.
bench:
	tools/bench

# Volumes damaged by a seed, and what is lifted of them: the table of docs/SALVAGE.md. VOLUMES and SEED may be given.
.PHONY: salvage
VOLUMES = 2100
SEED_OF_DAMAGE = 1
salvage:
	cd rust && MUKTHIBAN_LIB=$$(../tools/library) cargo run --offline --release --quiet -p mukthiban --example salvage -- $(VOLUMES) $(SEED_OF_DAMAGE)

# The proved library with its manifest, in dist/: what cargo, the demo and C link.
.PHONY: dist
dist:
	tools/dist

# Headers, library and pkg-config file below PREFIX.
.PHONY: install
PREFIX = /usr/local
install:
	@tools/install "$(PREFIX)"

# A sample volume, looked at, lifted and damaged.
.PHONY: demo
demo:
	@tools/demo
