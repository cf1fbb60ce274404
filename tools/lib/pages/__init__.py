"""The parts of tools/pages, and what tools/copy-to does with pages."""
