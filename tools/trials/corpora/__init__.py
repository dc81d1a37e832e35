"""The parts of corpus.py."""
