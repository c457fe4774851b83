"""How `glb-topology` gets from measured things to a topology.

`table` reads CSV, `choices` the file of choices, and `world` all tables together. `merge` makes fewer groups of it, and
`prefixes` fewer prefixes; `prices` solves the transport problem, and `lists` makes ranked lists and scores of it: all
that is a `plan`. `writer` writes the topology, `judge` says how good its maps are, and `explain` why a list is as it is.
`imports` and `readers` make tables of what other programs have.
"""
