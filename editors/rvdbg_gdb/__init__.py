"""The bridge for GDB: `packets` is its side, `engine` the debugger's, `server` and `stops` are between them."""
