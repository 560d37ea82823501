//! The tests are in tests/: each runs the command and holds what it prints to a file of tests/expected.
