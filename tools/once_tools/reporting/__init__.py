"""`once-report`: an answer of `once` as a page for whoever signs the bill."""
