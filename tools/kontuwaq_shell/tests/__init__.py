"""Tests of the shell, which tools/shell_test runs."""
