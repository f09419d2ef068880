"""The commands, a module each: USAGE, TEXT, OPTIONS and EXAMPLES are its help, `run` does it."""
