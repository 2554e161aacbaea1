"""Tools round Vaugrenis: maps, streams and fleets for it, and reports of the journals that it prints.

Units, throughout: times and weights are seconds, lengths are metres, places are longitude and latitude in
millionths of a degree (WGS 84), and nodes are numbered from 1 as in the road graph.
"""
