.PHONY: try test build gate package image

try: ; tools/try
test: ; tests/run --quick
build: ; tools/build
gate: ; .ci/run
package: ; tools/package
image: ; tools/image
