"""The parts of tools/dist."""
