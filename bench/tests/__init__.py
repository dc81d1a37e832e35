"""Tests of what judges bounds and writes figures."""
