#!/usr/bin/env bash
# Starts and ends three ssh hosts that are this one machine, to try parallel.sh --hosts.
set -eu
usage=$(cat << 'END'
hosts.sh start DIR     makes DIR and starts an sshd in it, on 127.0.0.1, port 22222, with a key of its own; prints the file for --hosts
hosts.sh stop DIR      ends it, and the connections that it took
hosts.sh lose DIR N    ends the connections of host N (1 to 3) with all that runs on it, as if the host were lost

For tests only. Debian: openssh-server.
END
)
[ "${1:---help}" != --help ] || { echo "$usage"; exit 0; }
[ $# -ge 2 ] || { echo "$usage" >&2; exit 2; }
verb=$1
mkdir -p "$2"
dir=$(readlink -f -- "$2")

# the processes below one, the deepest last
below() {
  local child
  for child in $(ps -o pid= --ppid "$1"); do echo "$child"; below "$child"; done
}

case $verb in
  start)
    mkdir -p /run/sshd
    chmod 700 "$dir"
    ssh-keygen -q -t ed25519 -N '' -f "$dir/host_key"
    ssh-keygen -q -t ed25519 -N '' -f "$dir/user_key"
    cp "$dir/user_key.pub" "$dir/authorized"
    cat > "$dir/sshd_config" << END
Port 22222
ListenAddress 127.0.0.1
HostKey $dir/host_key
PidFile $dir/sshd.pid
AuthorizedKeysFile $dir/authorized
StrictModes no
UsePAM no
PasswordAuthentication no
MaxStartups 100
END
    for node in 1 2 3; do
      cat << END
Host node$node
  HostName 127.0.0.1
  Port 22222
  User $(id -un)
  IdentityFile $dir/user_key
  IdentitiesOnly yes
  HostKeyAlias tried
  UserKnownHostsFile $dir/known
  StrictHostKeyChecking accept-new
  SetEnv LC_NODE=node$node
END
      echo "1/ssh -F $dir/ssh_config node$node" >> "$dir/hosts"
    done > "$dir/ssh_config"
    "$(command -v sshd || echo /usr/sbin/sshd)" -f "$dir/sshd_config" -E "$dir/sshd.log"
    echo "$dir/hosts"
    ;;
  stop)
    [ -s "$dir/sshd.pid" ] || exit 0
    id=$(cat "$dir/sshd.pid")
    children=$(below "$id")
    kill "$id" 2> /dev/null || true
    for child in $children; do kill "$child" 2> /dev/null || true; done
    ;;
  lose)
    # the clients of that host are known by their words; what serves them is found by the port at the other end
    for client in $(ps -eo pid=,args= | awk -v words="-F $dir/ssh_config node$3" '$2 ~ /ssh$/ && index($0, words) { print $1 }'); do
      port=$(ss -Htnp 2> /dev/null | awk -v id="pid=$client," 'index($0, id) { sub(/.*:/, "", $4); print $4; exit }')
      [ -n "$port" ] || continue
      server=$(ss -Htnp "sport = :22222 and dport = :$port" | sed -n 's/.*pid=\([0-9]*\),.*/\1/p')
      for id in $server $(for one in $server; do below "$one"; done); do kill -9 "$id" 2> /dev/null || true; done
    done
    ;;
  *) echo "$usage" >&2; exit 2 ;;
esac
