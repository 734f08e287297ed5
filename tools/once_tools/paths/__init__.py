"""Paths of packets through the network, and the traffic declaration made from them."""
from __future__ import annotations

from dataclasses import replace
from typing import Mapping

from once_tools.model import Device
from once_tools.paths.declaring import declare
from once_tools.paths.layers import metered_by
from once_tools.paths.pieces import Declaration, kept, limit_findings

__all__ = ["Declaration", "cut_to_metered", "declare", "limit_findings"]


def cut_to_metered(declaration: Declaration, network: list[Device] | Mapping[str, object]) -> Declaration:
    """Returns a declaration without the crossings that no observation point sees: they cannot change an answer."""
    metered = metered_by(network)
    pieces = [replace(piece, paths=kept(piece.paths, metered)) for piece in declaration.pieces]
    return replace(declaration, pieces=pieces)
