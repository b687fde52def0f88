exec "$1" </dev/null >/dev/full
