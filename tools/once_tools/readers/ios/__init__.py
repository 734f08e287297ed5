"""Parts of the reader of Cisco IOS and IOS-XE."""
