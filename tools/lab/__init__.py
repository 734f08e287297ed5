"""A lab: running exporters and collectors in network namespaces, whose totals are compared with what `once` predicts."""
