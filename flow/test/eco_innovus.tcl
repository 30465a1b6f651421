# The change from eco_before.v to eco_after.v, by flow/eco.py, for innovus.
# 3 new cells, 3 new nets, 3 pins moved.
# This was not run on Innovus. Legalize the placement and route afterwards.

addNet vgi_n0
addNet vgi_n1
addNet vgi_n2
addInst -cell BUF_X4 -inst vgi_u0
addInst -cell INV_X4 -inst vgi_u1
addInst -cell INV_X4 -inst vgi_u2
detachTerm u.2 A {core/n[3]}
attachTerm u.2 A vgi_n0
detachTerm u3 A {w/q[2]}
attachTerm u3 A vgi_n1
detachTerm u3 Y {v[1]}
attachTerm u3 Y vgi_n2
attachTerm vgi_u0 A {core/n[3]}
attachTerm vgi_u0 Y vgi_n0
attachTerm vgi_u1 A {w/q[2]}
attachTerm vgi_u1 Y vgi_n1
attachTerm vgi_u2 A vgi_n2
attachTerm vgi_u2 Y {v[1]}
placeInstance vgi_u0 90.25 160
# vgi_u1 has no place
placeInstance vgi_u2 -3.5 1000
