#!/usr/bin/env bash
# Tests nonograde-shards over three machines: on this one, an `sshd` each on 127.0.0.1 to 127.0.0.3 with its own
# processes and its own folder for shards, so that only root can. It needs GNU parallel, rsync and OpenSSH's
# server. It runs the program that `rt ci` left in crates/nonograde/out, or the one that NONOGRADE names. Its
# last line is `N passed, M failed`.
. "$(dirname "$0")/common.sh"
if ! unshare --mount --pid --fork --kill-child true 2>/dev/null; then
    echo "left out: machines, since this user can't make them"
    echo '0 passed, 0 failed'
    exit
fi
unset PARALLEL
PATH=$PATH:/usr/sbin
open_room
cd "$room" || exit
export HOME=$room
machines=() started=()
trap 'kill -KILL "${started[@]}" 2>/dev/null; rm -rf "$room"' EXIT

# Makes keys, and an `ssh` that uses them and nothing of the user's.
make_keys() {
    ssh-keygen -q -t ed25519 -N '' -f key
    mkdir -p bin shards /run/sshd
    cat >bin/ssh <<END
#!/bin/sh
exec $(command -v ssh) -F none -i '$room/key' -p $port -o BatchMode=yes -o LogLevel=ERROR \\
    -o StrictHostKeyChecking=no -o UserKnownHostsFile=/dev/null -o KexAlgorithms=curve25519-sha256 "\$@"
END
    chmod +x bin/ssh
    PATH=$room/bin:$PATH
}

# Starts machine N, and waits for it.
# shellcheck disable=SC2016 # The new machine's shell expands its words.
start_machine() {
    mkdir -p "folder$1"
    unshare --mount --pid --fork --kill-child bash -c '
        mount --bind "folder$1" shards
        read -r pid _ </proc/self/stat
        echo "$pid" >"pid$1"
        exec "$(command -v sshd)" -D -f /dev/null -h "$PWD/key" -p "$2" -o ListenAddress="127.0.0.$1" \
            -o AuthorizedKeysFile="$PWD/key.pub" -o PidFile=none -o StrictModes=no -o UsePAM=no \
            -o SetEnv="HOME=$PWD"
    ' bash "$1" "$port" 2>"start$1" &
    machines[$1]=$!
    started+=($!)
    disown
    for _ in {1..100}; do
        ssh "127.0.0.$1" true 2>/dev/null && return
        sleep 0.1
    done
    count "the start of machine $1" "$(<"start$1")"
    finish
}

# Makes a program that surveys as ours does, and notes where. On machine 3 it doesn't end while there is `bad`.
make_survey() {
    cat >survey <<END
#!/usr/bin/env bash
read -r _ _ machine _ <<<"\${SSH_CONNECTION-}"
echo "\$machine" >>'$room/surveyed'
if [ "\$machine" = 127.0.0.3 ] && [ -e '$room/bad' ]; then
    touch '$room/reached'
    sleep 100
fi
exec '$program' "\$@"
END
    chmod +x survey
    export NONOGRADE=$room/survey
}

# Sends a process a signal when machine 3 is in the midst of a shard.
in_the_midst() {
    touch bad
    {
        until [ -e reached ]; do sleep 0.1; done
        kill "$@"
    } &
    started+=($!)
    disown
}

# Surveys over some machines, and checks it: a name for this, the status and the machines, and further words.
check_over() {
    check "$1" "$2" shards --dir shards --entries 150 --show collection \
        --sshlogin "$(sed 's/[123]/1\/127.0.0.&/g' <<<"$3")" "${@:4}"
}

port=$((20000 + RANDOM % 12000))
make_keys
make_survey
yes "$tools/../puzzles/collection.txt" | head -n 100 | xargs cat >collection
"$program" survey --show <collection >expected
for machine in 1 2 3; do
    start_machine $machine
done
check_over 'three machines' 0 1,2,3 --cleanup
count 'the machines that surveyed' "$(sort -u surveyed | grep -c 127.0.0 | grep -vx 3)"
count 'copies that stay' "$(find folder? -mindepth 1)"

rm -r shards/*
in_the_midst -KILL "${machines[3]}"
check_over 'a machine that dies' 0 1,2,3 --retries 3

# A dead machine alone fails all shards. A resumed run surveys them on the others.
rm -r shards/*
mv expected whole
"$program" survey </dev/null >expected
check_over 'a dead machine' 3 3 --joblog log
check_said 'a dead machine' "nonograde-shards: shards 1 to 12: entries 1 to 1700 are missing: ssh: connect to host 127.0.0.3 port $port: Connection refused"
mv whole expected
check_over 'a resumed run' 0 1,2 --joblog log --resume-failed

rm -r shards/* reached
start_machine 3
in_the_midst -STOP "$(<pid3)"
SECONDS=0
check_over 'a machine that hangs' 0 1,2,3 --timeout 10 --retries 3
count 'the time of a machine that hangs' "$([ $SECONDS -lt 100 ] || echo "$SECONDS s")"
finish
