"""Names of the information elements (IANA) that exporters of flow records send."""
from __future__ import annotations

from once_tools.streams.messages import Field

NAMES = {
    1: "octetDeltaCount", 2: "packetDeltaCount", 3: "deltaFlowCount", 4: "protocolIdentifier", 5: "ipClassOfService",
    6: "tcpControlBits", 7: "sourceTransportPort", 8: "sourceIPv4Address", 9: "sourceIPv4PrefixLength", 10: "ingressInterface",
    11: "destinationTransportPort", 12: "destinationIPv4Address", 13: "destinationIPv4PrefixLength", 14: "egressInterface",
    15: "ipNextHopIPv4Address", 16: "bgpSourceAsNumber", 17: "bgpDestinationAsNumber", 18: "bgpNextHopIPv4Address",
    19: "postMCastPacketDeltaCount", 20: "postMCastOctetDeltaCount", 21: "flowEndSysUpTime", 22: "flowStartSysUpTime",
    23: "postOctetDeltaCount", 24: "postPacketDeltaCount", 25: "minimumIpTotalLength", 26: "maximumIpTotalLength",
    27: "sourceIPv6Address", 28: "destinationIPv6Address", 29: "sourceIPv6PrefixLength", 30: "destinationIPv6PrefixLength",
    31: "flowLabelIPv6", 32: "icmpTypeCodeIPv4", 33: "igmpType", 34: "samplingInterval", 35: "samplingAlgorithm",
    36: "flowActiveTimeout", 37: "flowIdleTimeout", 38: "engineType", 39: "engineId", 40: "exportedOctetTotalCount",
    41: "exportedMessageTotalCount", 42: "exportedFlowRecordTotalCount", 44: "sourceIPv4Prefix", 45: "destinationIPv4Prefix",
    46: "mplsTopLabelType", 47: "mplsTopLabelIPv4Address", 48: "samplerId", 49: "samplerMode", 50: "samplerRandomInterval",
    51: "classId", 52: "minimumTTL", 53: "maximumTTL", 54: "fragmentIdentification", 55: "postIpClassOfService",
    56: "sourceMacAddress", 57: "postDestinationMacAddress", 58: "vlanId", 59: "postVlanId", 60: "ipVersion",
    61: "flowDirection", 62: "ipNextHopIPv6Address", 63: "bgpNextHopIPv6Address", 70: "mplsTopLabelStackSection",
    80: "destinationMacAddress", 81: "postSourceMacAddress", 82: "interfaceName", 83: "interfaceDescription",
    84: "samplerName", 85: "octetTotalCount", 86: "packetTotalCount", 88: "fragmentOffset", 89: "forwardingStatus",
    95: "applicationId", 96: "applicationName", 128: "bgpNextAdjacentAsNumber", 129: "bgpPrevAdjacentAsNumber",
    130: "exporterIPv4Address", 131: "exporterIPv6Address", 132: "droppedOctetDeltaCount", 133: "droppedPacketDeltaCount",
    136: "flowEndReason", 138: "observationPointId", 139: "icmpTypeCodeIPv6", 141: "lineCardId", 142: "portId",
    143: "meteringProcessId", 144: "exportingProcessId", 145: "templateId", 148: "flowId", 149: "observationDomainId",
    150: "flowStartSeconds", 151: "flowEndSeconds", 152: "flowStartMilliseconds", 153: "flowEndMilliseconds",
    154: "flowStartMicroseconds", 155: "flowEndMicroseconds", 156: "flowStartNanoseconds", 157: "flowEndNanoseconds",
    158: "flowStartDeltaMicroseconds", 159: "flowEndDeltaMicroseconds", 160: "systemInitTimeMilliseconds",
    161: "flowDurationMilliseconds", 169: "destinationIPv6Prefix", 170: "sourceIPv6Prefix", 173: "flowKeyIndicator",
    176: "icmpTypeIPv4", 177: "icmpCodeIPv4", 178: "icmpTypeIPv6", 179: "icmpCodeIPv6", 180: "udpSourcePort",
    181: "udpDestinationPort", 182: "tcpSourcePort", 183: "tcpDestinationPort", 192: "ipTTL", 195: "ipDiffServCodePoint",
    206: "isMulticast", 210: "paddingOctets", 225: "postNATSourceIPv4Address", 226: "postNATDestinationIPv4Address",
    227: "postNAPTSourceTransportPort", 228: "postNAPTDestinationTransportPort", 230: "natEvent", 231: "initiatorOctets",
    232: "responderOctets", 233: "firewallEvent", 234: "ingressVRFID", 235: "egressVRFID", 239: "biflowDirection",
    243: "dot1qVlanId", 256: "ethernetType", 291: "basicList", 292: "subTemplateList", 293: "subTemplateMultiList",
    298: "initiatorPackets", 299: "responderPackets", 301: "selectionSequenceId", 302: "selectorId", 304: "selectorAlgorithm",
    305: "samplingPacketInterval", 306: "samplingPacketSpace", 307: "samplingTimeInterval", 308: "samplingTimeSpace",
    309: "samplingSize", 310: "samplingPopulation", 311: "samplingProbability", 352: "layer2OctetDeltaCount",
    353: "layer2OctetTotalCount",
}
REVERSE = 29305  # RFC 5103: the reverse direction of a flow
SCOPE = 1 << 32  # scope fields of NetFlow 9 have numbers of their own


def name_of(field: Field) -> str:
    """Returns the name of a field's element, or its number where it has none here."""
    name = NAMES.get(field.element, f"element {field.element}")
    if field.enterprise == 0:
        return name
    if field.enterprise == REVERSE:
        return f"reverse {name}"
    if field.enterprise == SCOPE:
        return f"scope {field.element}"
    return f"element {field.element} of enterprise {field.enterprise}"


def numbers_of(template_fields: tuple[Field, ...]) -> dict[int, int]:
    """Returns the lengths of a template's fields by the numbers of IANA's elements; the first of several counts."""
    found: dict[int, int] = {}
    for field in template_fields:
        if field.enterprise == 0:
            found.setdefault(field.element, field.length)
    return found
