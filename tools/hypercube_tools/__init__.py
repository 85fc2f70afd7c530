"""Tools around the program `hypercube`: plans from tables, tables and pictures from its texts, and studies of many plans.

    from hypercube_tools import frame
    report = frame(open("town.report").read())
"""
from .texts import frame

__all__ = ["frame"]
