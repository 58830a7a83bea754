#!/bin/sh
# by_ssh.sh HOST COMMAND: runs a command on a host by ssh, or by what MANY_SSH names: without a terminal, without the agent and without X11, and asks
# for no password. A host that falls silent is given up. No file that the host's words go to grows beyond 64 MB, as in one.sh. A HOST that begins
# with `-` is a host and no option of ssh.
ulimit -f 131073
exec ${MANY_SSH:-ssh} -T -a -x -o BatchMode=yes -o ConnectTimeout=10 -o ServerAliveInterval=15 -- "$@"
