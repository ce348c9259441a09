"""One page in HTML that shows a run."""
