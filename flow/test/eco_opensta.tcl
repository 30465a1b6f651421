# The change from eco_before.v to eco_after.v, by flow/eco.py, for opensta.
# 3 new cells, 3 new nets, 3 pins moved.
# Runs a command, and nothing more after one that failed: OpenSTA answers 0 where it finds no such name, and goes on.
set vg_failed 0
proc vg_do {args} {
    global vg_failed
    if { $vg_failed } { return }
    if { [catch { uplevel #0 $args } answer] || $answer in {0 NULL} } {
        set vg_failed 1
        error "failed, and the rest of the change is left out: $args ($answer)"
    }
}

vg_do make_net vgi_n0
vg_do make_net vgi_n1
vg_do make_net vgi_n2
vg_do make_instance vgi_u0 BUF_X4
vg_do make_instance vgi_u1 INV_X4
vg_do make_instance vgi_u2 INV_X4
vg_do disconnect_pin {core\/n\[3\]} [get_pins u.2/A]
vg_do connect_pin vgi_n0 [get_pins u.2/A]
vg_do disconnect_pin {w\/q[2]} u3/A
vg_do connect_pin vgi_n1 u3/A
vg_do disconnect_pin {v[1]} u3/Y
vg_do connect_pin vgi_n2 u3/Y
vg_do connect_pin {core\/n\[3\]} vgi_u0/A
vg_do connect_pin vgi_n0 vgi_u0/Y
vg_do connect_pin {w\/q[2]} vgi_u1/A
vg_do connect_pin vgi_n1 vgi_u1/Y
vg_do connect_pin vgi_n2 vgi_u2/A
vg_do connect_pin {v[1]} vgi_u2/Y
