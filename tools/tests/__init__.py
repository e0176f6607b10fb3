"""Tests of the tools themselves. Programs that take long or need the toolchain are played by small scripts (`stand_in`)."""
