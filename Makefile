# make test   everything that .ci/run does: every proof, must-fail edit and program, then the quick runs
# make demo   the main job on small examples: the sole of a last, meshed by lastcheck; a last that closes, drawn in
#             build/last.png and written as build/last.stl
# make bench  figures of speed, measured on this machine
# make lib    build/libakfelzun.a, for x86-64, and build/akfelzun.h, for a plug-in to link
# make examples  the two hosts and the test of bad input, on this machine
# make compare   every call beside the Rust and the plain reading, 100,000 cases each (seed=N cases=N)
# make misread   misreadings of documents 01 and 02 on purpose: the comparison must see each
# make readers   the demo's STL file, read by Python, and by ADMesh, Blender, PrusaSlicer and OpenSCAD, where they are
#             there
.PHONY: test demo quick lib examples compare misread readers bench bench-root bench-last

test:
	@.ci/run

# the runs that take seconds: the root against the processor's; while the face's archive is made, the tools on made-up
# inputs and what closes; then each call beside the Rust, the hosts, files of STL, the program on its inputs
quick:
	@bench/root/run quick
	@tools/native-face >/dev/null & face=$$!; tests/tools/run && compare/run closed && wait $$face
	@compare/run short
	@examples/run
	@tests/stl/run
	@tests/lastcheck/run

lib:
	@tools/lib

examples:
	@examples/run

demo:
	@demo/last
	@demo/closed

seed = 1
cases = 100000
compare:
	@compare/run $(seed) $(cases)

misread:
	@compare/run misread

readers:
	@tests/stl/readers

bench: bench-root bench-last

bench-root:
	@bench/root/run

bench-last:
	@bench/last/run
