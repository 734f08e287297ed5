"""Networks of one meter and one collector, from the command line of an exporter."""
