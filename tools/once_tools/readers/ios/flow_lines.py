"""Which lines of a running configuration speak of flows, whether they are read or not."""
from __future__ import annotations

import re

from once_tools.readers.trees import Node

# Abbreviated words are statements too where somebody has typed a configuration.
FLOWS = re.compile(r"(?:no\s+)?(?:(?:ip|ipv4|ipv6|datalink|mpls)\s+fl(?:o|ow)?(?:-\S+)?\s|"
                   r"fl(?:o|ow)?\s|flow-\S+|netflow\b|et-analytics\b|performance\s+monitor\b|"
                   r"service-policy\s+type\s+performance-|mls\s+(?:netflow|nde|flow|sampling)\b|"
                   r".*\bflow(?:\s+monitor|-export|-record)\b)", re.IGNORECASE)
# Lines whose words are a person's, or commands that are not in force.
QUOTING = {"action", "alias", "archive", "banner", "description", "event", "name", "privilege", "remark", "snmp-server",
           "title", "username"}


def is_about_flows(node: Node) -> bool:
    """Returns whether a line speaks of metering or of the export of flow records."""
    return node.words[0] not in QUOTING and FLOWS.match(node.text) is not None
