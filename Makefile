# The front door: each target is one script, which says more.
.PHONY: check test edits docs install release

check: ; sh .ci/run
test: ; sh tools/tests
# make edits CRATE=reply [LABEL=answers_accepted]
edits: ; sh tools/edits $(CRATE) $(LABEL)
# tables that scripts print: docs/*.sh
docs: ; sh docs/crates.sh write && sh docs/trust.sh write && sh docs/contracts.sh write && sh docs/stack.sh write && sh docs/costs.sh write
# make install PREFIX=/usr/local
install: ; sh tools/install $(PREFIX)
release: ; sh tools/release
