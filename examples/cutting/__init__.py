"""The parts of in-parallel."""
