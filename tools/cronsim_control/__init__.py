"""The parts of cronsim-control."""
