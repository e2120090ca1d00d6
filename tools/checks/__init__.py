"""The parts of tools/check: each file checks one thing and answers a list of errors, `file:line: text`."""
