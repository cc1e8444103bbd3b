"""Import of track layouts: OpenStreetMap XML, SUMO networks and XTrackCAD layouts.

A reader (`osm`, `sumo_net`, `xtrackcad`) makes `Tracks` from a file. `parts` chooses a connected
part, `directions` gives every segment an up end, `sections` makes sections and points, `boards`
places boards, and `naming` names everything. `notes` records what was read, cut, absorbed and
guessed.
"""
