cd "$2" || exit
truncate -s 2G big
ulimit -v 1000000
exec "$1" run <big
