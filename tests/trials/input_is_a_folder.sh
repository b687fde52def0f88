exec "$1" <tests
