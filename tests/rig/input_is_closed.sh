exec "$1" run - <&-
