"""Sources of the notation, read and evaluated as docs/NOTATION.md says, with nothing of the program `u`."""
