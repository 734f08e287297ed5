"""Programs around `once`: importers from router configurations, and readers of captured exports."""
