"""Proving and building the programs of this repository, side by side."""
