exec "$1" < <(printf '\x03\x03\x74\x77') >/dev/full
