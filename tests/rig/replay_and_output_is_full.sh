exec "$1" replay tests/twin/alike.fittings tests/twin/alike.capture >/dev/full
