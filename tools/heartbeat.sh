#!/usr/bin/env bash
# Runs a command as it is, with its standard input, output and status, and says on standard error that it is still at work, every so
# many seconds until it ends: tools/heartbeat.sh SECONDS WORDS COMMAND..
set -eu
seconds=$1 words=$2
shift 2
# $$ is this shell's process, and then that of the command
until timeout "$seconds" tail -s 0.2 --pid=$$ -f /dev/null; do
  echo "$words, $SECONDS s" >&2
done < /dev/null > /dev/null &
exec "$@"
