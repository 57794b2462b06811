# `make example` builds the program, compares its answers to the examples with those stored, and asks the first once more
# over its index;
# `make try` asks it in half a minute, with no proof; `make gate` runs the gate; `make runs` the stored runs alone;
# `make bench` times the program and its parts; `make random` compares it with an evaluator of its own in Python, on
# random queries; `make standards FOLDER=..` runs the tests of the W3C that you have in a folder; `make pages` writes the
# pages of docs/ that are made.
.PHONY: example try gate runs bench random standards pages build

INSTRUMENTS = hierarchy labels overview
BENCHES = bench_rows bench_lanes bench_slices bench_relations bench_terms bench_reading bench_numbers bench_results bench_images bench_opening bench_best bench_engine

example: build
	./bitmat ask examples/people.nt examples/friends.rq tsv | diff examples/friends.tsv -
	cd examples/instruments && for query in $(INSTRUMENTS); do \
	    ../../bitmat ask instruments.nt $$query.rq tsv | diff $$query.tsv - || exit 1; done
	rm -f people.index
	./bitmat load examples/people.nt people.index
	./bitmat query people.index examples/friends.rq tsv | diff examples/friends.tsv -
	./bitmat query people.index examples/friends.rq tsv

try:
	cd crates/bitmat && rt try --data people.nt=../../examples/people.nt --data friends.rq=../../examples/friends.rq \
	    -- ask people.nt friends.rq tsv
	@echo "This proves nothing: it runs the program as it is written. \`make example\` proves it first."

gate:
	./.ci/run

runs: build
	tools/stored_runs.py ./bitmat

bench: build
	for bench in $(BENCHES); do (cd crates/$$bench && rt run) || exit 1; done
	bench/read.py crates/bench_reading/out/bench_reading
	bench/ask.py ./bitmat
	bench/index.py ./bitmat

random: build
	bench/random_queries.py ./bitmat 2000

standards: build
	bench/standards.py ./bitmat $(FOLDER)

pages:
	tools/headline.py
	tools/crates_picture.py

# Only a proved program is built: `rt run` proves it, builds it and runs it once, on the two files of its folder.
build:
	cd crates/bitmat && rt run -- ask data/d data/q tsv
	cp crates/bitmat/out/bitmat bitmat
