"""Exports of flow records in captures: IPFIX streams for `once collect`, and the templates that exporters send."""
