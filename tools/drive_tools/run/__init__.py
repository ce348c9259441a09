"""Runs of `ssd`, followed from outside."""
