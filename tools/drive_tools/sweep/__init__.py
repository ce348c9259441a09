"""Many configurations run side by side."""
