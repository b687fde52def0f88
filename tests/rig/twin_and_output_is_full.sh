exec "$1" twin tests/twin/alike.fittings tests/twin/alike.capture >/dev/full
