exec "$1" twin tests/twin/alike.fittings tests/twin/alike.capture --other tests/twin/alike.other >/dev/full
