#!/usr/bin/env bash
# orders.sh [ORDERS]: orders.mjs with so many orders, over a server that ends with it.
set -eu
here=$(dirname "$(readlink -f "$0")") room=$(mktemp -d)
# (the package need not be installed: it is the checkout's)
export PYTHONPATH=$here/../../clients/python
printf '%s\n' 'worker ann 1' 'register shop' > "$room/head"
python3 -m covetrivet serve --socket "$room/socket" --head "$room/head" 2> "$room/said" &
server=$!
trap 'kill "$server"; wait "$server" || :; rm -rf "$room"' EXIT
until [ -S "$room/socket" ]; do
  sleep 0.05
  kill -0 "$server"
done
"$here/orders.mjs" "$room/socket" "${1-100}"
