"""The parts of tools/tests."""
