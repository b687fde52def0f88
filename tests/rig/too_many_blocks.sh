cp tests/twin/alike.fittings "$2"
cd "$2" || exit
# Ten million empty blocks.
truncate -s 20M zeros
ulimit -v 100000
exec "$1" replay alike.fittings zeros
