"""Running the tests of both tools: each file of tests in a process of its own, several at once."""
