"""The shell of tools/shell: it drives the program through two pipes."""
