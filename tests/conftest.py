"""All tests here are run by one harness, tests/harness.py."""
pytest_plugins = ("harness",)
