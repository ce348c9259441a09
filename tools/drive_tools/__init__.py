"""The tools around `ssd`. They make its inputs and read its outputs, and decide nothing that it decides."""
