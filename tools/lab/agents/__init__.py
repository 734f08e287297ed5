"""Small programs that the lab runs in its network namespaces: senders, receivers, replays."""
