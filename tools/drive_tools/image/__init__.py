"""Images of drives: made from a description, read back, and shown."""
