"""The modules of the commands in tools/."""
