"""Plane trusses, and bodies with bars and hinges: what is rigid in general position, and why.

    from matbench.truss import analysis, plane_truss, proved

    truss = plane_truss([("b1", "A", "B"), ("b2", "B", "C"), ("b3", "C", "A")], pins=["A"])
    found = analysis(truss)
    found.is_rigid, found.missing         # False, 1: it turns about A
    [truss.members[it].name for it in found.critical]
    proof = proved(found)                 # certificates of `cover`, and a count of parts

`bodies` makes a structure of bodies, joined by bars and hinges, in the plane or in space. In a
special position, as with three bars that meet in one point, it may be less rigid, and never more.
"""
from matbench.truss.analysis import Analysis, analysis
from matbench.truss.folders import read_proof, write_proof
from matbench.truss.proofs import NotProved, Proof, Shown, judged, proved
from matbench.truss.reading import read_structure
from matbench.truss.structures import Member, Structure, bars_of_graph, bodies, plane_truss

__all__ = ["Analysis", "Member", "NotProved", "Proof", "Shown", "Structure", "analysis",
           "bars_of_graph", "bodies", "judged", "plane_truss", "proved", "read_proof",
           "read_structure", "write_proof"]
