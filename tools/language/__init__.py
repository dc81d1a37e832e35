"""Queries of the language as terms of the definitions of xq_meaning."""
