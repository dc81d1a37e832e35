"""Tests of the scripts, and of the program by tables of requests."""
