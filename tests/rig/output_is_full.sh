exec "$1" run tests/rig/one_hears.script >/dev/full
