"""The tests of the package, over a built program: `./run_tests PROGRAM`."""
