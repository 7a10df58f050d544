#!/bin/sh
# A proxy in front of an RPC server: it passes on only messages that `capvet filter` accepts, in both directions.
#
#     rpc-guard.sh PORT SERVER        such as rpc-guard.sh 4000 127.0.0.1:4001
#
# It listens on this machine alone, and serves until it is stopped. A refused message ends its connection, and no other
# one. Its line is on standard error. It needs `socat` and `capvet` on the path.
[ $# = 2 ] || { echo "usage: rpc-guard.sh PORT SERVER" >&2; exit 2; }

# Each connection is a pipeline. When the replies end, or one of them is refused, the last command ends the connection.
export SERVER="$2"
exec socat "TCP-LISTEN:$1,bind=127.0.0.1,reuseaddr,fork,max-children=100,nodelay" SYSTEM:'
  capvet filter --stop | socat - "TCP\:$SERVER,nodelay" | { capvet filter --stop; socat -u /dev/null -,shut-down; }'
