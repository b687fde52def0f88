exec "$1" --help >/dev/full
