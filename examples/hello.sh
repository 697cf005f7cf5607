#!/usr/bin/env bash
# The same in bash, for a member that talks with nobody: it looks each second. usage: hello.sh NODE ADDR
[ $# = 2 ] || { sed -n 2p "$0" >&2; exit 2; }
ctl() { "$here/../client/resetctl" --address "$address" --client "$node" --state "hello-$node" "$@"; }
node=$1 address=$2 here=$(dirname "$(realpath "$0")")
until ctl --quiet reset "$node"; do sleep 1; done  # a new start has begun nothing
while sleep 1; do
  read -r epoch confirmed < <(ctl show | awk -v n="$node" '$1 == n { print $5, $6 + 0 }')
  ((${epoch:-0} <= ${confirmed:-0})) || { echo "hello $node: begins epoch $epoch"; ctl --quiet confirm "$node" "$epoch"; }
done
