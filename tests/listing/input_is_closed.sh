exec "$1" <&-
