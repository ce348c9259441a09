"""Traces: from the logs of real workloads, and made by chance."""
