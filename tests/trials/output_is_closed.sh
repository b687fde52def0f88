exec "$1" </dev/null >&-
