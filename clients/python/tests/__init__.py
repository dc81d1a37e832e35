"""Tests of the client, over a real server.

    tools/run run_tests clients/python                     all, side by side
    tools/run run_tests clients/python tests.test_mux      one module

`XQS_SERVER` names the command of the server, by default the repository's ./serve. `XQS_LONG=1` also
runs the tests that take long. Tests that need packages from outside the standard library are in
with_packages: `tools/run run_tests clients/python test_web`. Python has to find the client and
these tests, as `tools/run` sees to: PYTHONPATH=clients/python/src:clients/python, as whole paths.
"""
