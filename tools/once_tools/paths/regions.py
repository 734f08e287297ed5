"""Spans of addresses, as texts of regions and back."""
from __future__ import annotations

import ipaddress
from dataclasses import dataclass

from once_tools.paths.topology import Address

BITS = {4: 32, 6: 128}


@dataclass(frozen=True, order=True)
class Span:
    """The addresses of a version from `low` to `high`."""

    version: int
    low: int
    high: int

    @property
    def first(self) -> Address:
        """The lowest address."""
        return ipaddress.IPv4Address(self.low) if self.version == 4 else ipaddress.IPv6Address(self.low)

    @property
    def last(self) -> Address:
        """The highest address."""
        return ipaddress.IPv4Address(self.high) if self.version == 4 else ipaddress.IPv6Address(self.high)

    @property
    def is_all(self) -> bool:
        """Whether all addresses of the version are in it."""
        return self.low == 0 and self.high == (1 << BITS[self.version]) - 1

    def __str__(self) -> str:
        if self.low == self.high:
            return str(self.first)
        size = self.high - self.low + 1
        if size & (size - 1) == 0 and self.low % size == 0:
            length = BITS[self.version] - size.bit_length() + 1
            return f"{self.first}/{length}" if length else f"{self.first}-{self.last}"
        return f"{self.first}-{self.last}"


def span_of(text: str) -> Span | None:
    """Returns the span of an address, a prefix or `LOW-HIGH`, or None where a text is none of these."""
    low, hyphen, high = text.partition("-")
    try:
        if hyphen:
            first, last = ipaddress.ip_address(low.strip()), ipaddress.ip_address(high.strip())
            is_right = first.version == last.version and int(first) <= int(last)
            return Span(first.version, int(first), int(last)) if is_right else None
        network = ipaddress.ip_network(text, strict=False)
        return Span(network.version, int(network[0]), int(network[-1]))
    except ValueError:
        return None


def whole(version: int) -> Span:
    """Returns all addresses of a version."""
    return Span(version, 0, (1 << BITS[version]) - 1)


def cut(span: Span, cuts: list[int]) -> list[Span]:
    """Returns a span in pieces that begin at these addresses."""
    starts = [span.low, *sorted({at for at in cuts if span.low < at <= span.high})]
    ends = [at - 1 for at in starts[1:]] + [span.high]
    return [Span(span.version, low, high) for low, high in zip(starts, ends)]
