"""Samplers of one report that have different rates."""
from __future__ import annotations

from once_tools.model import Finding, Grade, Point, Topic
from once_tools.network import Network, is_leading, leading_exporters


def rate_of(point: Point) -> float | None:
    """Returns how many packets a point's sampler takes one of; 1 without a sampler, None if that is not known."""
    if point.sampling is None:
        return 1.0
    for name, value in point.sampling.items():
        if not isinstance(value, dict):
            continue
        if name == "sampRandOutOfN" and value.get("size"):
            return float(value.get("population", 0)) / float(value["size"])
        if name == "sampCountBased" and value.get("packetInterval"):
            interval = float(value["packetInterval"])
            return (interval + float(value.get("packetSpace", 0))) / interval
    return None


def different_rates(network: Network) -> list[Finding]:
    """Returns a premise if points of the report sample at different rates, at the first of them that samples."""
    leading = leading_exporters(network)
    rates: dict[float, str] = {}
    sampled: tuple[str, Point] | None = None
    for device in network.devices:
        for point in device.points:
            rate = rate_of(point) if is_leading(device, point, leading) else None
            if rate is not None:
                rates.setdefault(rate, f"1 in {rate:g} at {device.name}")
                sampled = sampled or ((device.name, point) if point.sampling else None)
    if len(rates) < 2 or sampled is None:
        return []
    says = f"rates of sampling differ ({', '.join(rates.values())}): estimates hold only if the collector scales each record " \
           "by its own rate"
    return [Finding(Grade.PREMISE, sampled[1].place, says, "sample at one rate", Topic.SAMPLER, None, sampled[0])]
