# rt proves, compiles and links the program, and leaves it here.
PROGRAM := crates/vamluyak/out/vamluyak
SOURCES := crates.txt $(shell find crates \( -name must-fail -o -name out \) -prune -o -type f -print)

.PHONY: demo test clean kit

# The files of one enquiry: who may do what with dome-1 and all that lies below it?
ENQUIRY := samples/observatory.hex --linked samples/tree-linked.hex --grants samples/grants-observatory.hex

# What the program does: every decision that a request asks for, the first single requests, a few calls by hand;
# then what the request and the tree hold, and a request that is refused.
demo: $(PROGRAM)
	@echo '$$ $(PROGRAM) rows $(ENQUIRY)'
	@$(PROGRAM) rows $(ENQUIRY)
	@echo
	@echo '$$ $(PROGRAM) singles $(ENQUIRY) | head -n 2'
	@$(PROGRAM) singles $(ENQUIRY) | head -n 2
	@echo
	@echo '$$ printf "step\nshow 20\nverdict\n" | $(PROGRAM) work $(ENQUIRY)'
	@printf 'step\nshow 20\nverdict\n' | $(PROGRAM) work $(ENQUIRY)
	@echo
	@echo '$$ $(PROGRAM) check request samples/observatory.hex'
	@$(PROGRAM) check request samples/observatory.hex
	@echo
	@echo '$$ $(PROGRAM) below dome-1 --linked samples/tree-linked.hex'
	@$(PROGRAM) below dome-1 --linked samples/tree-linked.hex
	@echo
	@echo '$$ $(PROGRAM) check request samples/refused-tag.hex'
	@$(PROGRAM) check request samples/refused-tag.hex; test $$? -eq 1

# Everything that is proved and tested. The last line is that of rt ci.
test: kit
	@tests/all.sh

clean:
	rm -rf crates/*/out

# What has not changed is not proved again.
$(PROGRAM): $(SOURCES) | kit
	cd crates/vamluyak && rt run -- --version >/dev/null
	@touch $@

kit:
	@command -v rt >/dev/null || { echo 'There is no rt in PATH: install the kit that README.md names.' >&2; exit 1; }
