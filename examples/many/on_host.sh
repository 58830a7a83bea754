#!/bin/sh
# on_host.sh HOST -- COMMAND: what GNU parallel calls in place of ssh. It runs the command here and only tells it the host, so that the job itself
# (one.sh) calls ssh and no file is copied. So parallel chooses the hosts, and a job that failed is tried again on another one.
MANY_HOST=$1
export MANY_HOST
shift
[ "$1" = -- ] && shift
exec sh -c "$*"
