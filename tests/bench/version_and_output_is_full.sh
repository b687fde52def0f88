exec "$1" --version >/dev/full
