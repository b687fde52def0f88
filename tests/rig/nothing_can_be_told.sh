# Where standard error fails, the status still tells.
exec "$1" run tests/nowhere 2>/dev/full
