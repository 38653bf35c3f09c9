# The commands of this repository. They need only the kit's `rt` on the path.
KIT := rattle-kit-13f logic dac8208d650f15bf
IMAGE := crates/account/stdin

REFERENCE := ../shared/reference

.PHONY: run dump panel judge bench test kit

# Proves what the program stands on, builds it, and prints the account of an image.
run: kit
	@$(call built,account) < $(IMAGE)

# Prints an image, so that it can be read.
dump: kit
	@$(call built,dump) < $(IMAGE)

# Prints the account of a panel whose tables stand in the code.
panel: kit
	@$(call built,panel)

# Compares names and journals with those of the published Rust files, which lie in a folder of their own.
judge: kit
	@tools/build replay
	@RUST_REFERENCE=$(REFERENCE) judge/run bounded "$(CURDIR)/crates/replay/out/replay"

# Times runs of both on the same images.
bench: kit
	@tools/build timing
	@RUST_REFERENCE=$(REFERENCE) judge/run bench "$(CURDIR)/crates/timing/out/timing" docs/speed.svg

# Tries what must be refused, proves everything, and runs the programs and the tests.
test: kit
	@tools/gate

kit:
	@command -v rt > /dev/null || { echo "no rt on the path: install $(KIT)"; exit 1; }
	@[ "$$(rt version)" = "$(KIT)" ] || echo "note: proved with $(KIT), and this is $$(rt version)"

# The program of a crate, built; what is printed on the way is shown only where it fails.
built = tools/build $(1) && crates/$(1)/out/$(1)
