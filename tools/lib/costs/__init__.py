"""The parts of tools/costs."""
