.PHONY: run test

run:
	mkdir -p out
	rm -rf out/store out/journal
	cd crates/filestore_cli && rt run -- ../../out/store ../../out/journal run new < stdin

test:
	.ci/run
