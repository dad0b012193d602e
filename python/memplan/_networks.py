"""Digraphs of networkx, which is not imported here: what is read of one is its nodes, its edges and their attributes."""

from __future__ import annotations

from typing import Any, Dict, List, Optional


def nodes_of(graph: Any) -> Dict[Any, Dict[str, Any]]:
    """The attributes of each node, of what is a digraph."""
    if not (hasattr(graph, "is_directed") and hasattr(graph, "nodes") and hasattr(graph, "edges")):
        raise TypeError(f"graph: a {type(graph).__name__} is no digraph of networkx")
    if not graph.is_directed():
        raise ValueError("graph: its edges have no direction")
    return dict(graph.nodes(data=True))


def attributes_of(nodes: Dict[Any, Dict[str, Any]], name: str, default: Optional[int]) -> Dict[Any, Any]:
    """An attribute of each node; without a default each has to have it."""
    found: Dict[Any, Any] = {}
    for node, attributes in nodes.items():
        if name in attributes:
            found[node] = attributes[name]
        elif default is None:
            raise ValueError(f"graph: node {node!r} has no attribute {name!r}")
        else:
            found[node] = default
    return found


def edges_of(graph: Any) -> List[Any]:
    """Triples of the node that makes, the node that reads, and the attributes."""
    return list(graph.edges(data=True))
