# The commands of every day, as `make crate NAME=batches`. docs/CONTRIBUTING.md says more about each.
PREFIX = /usr/local
PORT = 7070
WORLD = out/world
WORLDD = crates/worldd/out/worldd
name = $(or $(NAME),$(error write NAME=.., a crate of crates.txt))

try: ; cd crates/worldd && rt try -- steps <../../examples/session.txt
build: ; for program in worldd world_load; do (cd crates/$$program && rt run -- --version) || exit 1; done
gate: ; .ci/run
docs: ; scripts/map.py && scripts/check_docs.py
crate: ; (cd crates/$(name) && rt check && rt test) && rt must-fail $(name)
wrong-bodies: ; scripts/wrong_bodies.py $(name)
serve: ; mkdir -p $(WORLD) && if [ ! -e $(WORLD)/image.a ]; then $(WORLDD) create --dir $(WORLD) --cells 1000; fi && \
	$(WORLDD) serve --dir $(WORLD) --method zigzag --every 4096 --refuse-losses --port $(PORT) --clients 100
try-serve: ; scripts/try_serve.sh $(WORLD) $(PORT)
bench: ; bench/serve.sh
install: ; ./install.sh "$(PREFIX)"
uninstall: ; ./install.sh --uninstall "$(PREFIX)"
clean: ; rm -rf out crates/*/out && find . -name __pycache__ -prune -exec rm -rf {} +
help: ; @sed -n '/^| `make /{s/`//g; s/^| \([^|]*\) | \(.*\) |$$/\1: \2/p}' docs/CONTRIBUTING.md
.PHONY: try build gate docs crate wrong-bodies serve try-serve bench install uninstall clean help
