exec "$1" run <tests
