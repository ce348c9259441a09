"""What a run printed, read as a stream and counted."""
