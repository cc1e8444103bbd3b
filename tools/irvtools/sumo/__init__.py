"""Export of a plant to SUMO, a railway simulator, and comparison with SUMO's driveways.

`net_files` makes nodes, edges and connections, `ways` and `trains` the trains, `simulation` calls
netconvert and sumo, `driveways` reads SUMO's result, `comparison` compares it with the table.
"""
