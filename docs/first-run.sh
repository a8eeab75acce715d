#!/usr/bin/env bash
# Tries what a newcomer does, on what a newcomer has: the repository at HEAD cloned into an empty folder, and a kit beside which
# nothing is kept. It's no part of the gate. docs/gate.md has the figures.
#
#   docs/first-run.sh [first|prove|all] [PROCESSORS ..]
#
# `first` runs README's first command to its end, `prove` runs ./prove and then that command, `all` (or nothing) both, each on 4
# processors and held to 2, or on those that are named. For each run it prints the status, whether the output is that which README shows,
# the minutes, and the most memory that was in use: the proportional sizes of all processes of the run, every half a second.
set -u

top=$(dirname -- "$(dirname -- "$(readlink -f -- "${BASH_SOURCE[0]}")")")
room=
child=
failed=0

end_all() {
    if [ -n "$child" ]; then
        kill "$child" 2>/dev/null
        wait "$child" 2>/dev/null
    fi
    child=
    [ -z "$room" ] || rm -rf -- "$room" 2>/dev/null || { sleep 1 && rm -rf -- "$room"; }
    room=
}

# Makes a kit in the folder that is this machine's by links, with copies of rt itself: rt takes its own place for the kit's, and keeps
# results beside it. So nothing is kept there, and what is kept on this machine isn't touched.
kit_in() {
    local to=$1 kit it
    kit=$(dirname -- "$(dirname -- "$(readlink -f -- "$(command -v rt)")")") || return
    mkdir -p -- "$to/bin" || return
    for it in "$kit"/* "$kit"/bin/*; do
        case ${it#"$kit"/} in
            bin) ;;
            bin/rt | bin/*.py) cp -p -- "$it" "$to/bin/" || return ;;
            *) ln -s -- "$it" "$to/${it#"$kit"/}" || return ;;
        esac
    done
}

# The first command under README's heading Use.
first_command() {
    sed -n '/^## Use/,/^## [^U]/ s/^    //p' "$top/README.md" | head -n 1
}

# The line that README says to stand on standard error.
wanted_line() {
    grep -o 'psql: error: [^`]*' "$top/README.md" | head -n 1
}

# The kilobytes that a process and all below it have in use. A page that several share is counted once, where the system tells.
memory_of() {
    local it sum=0 size
    for it in $(ps -eo pid=,ppid= | awk -v top="$1" '
        { above[$1] = $2 }
        END {
            for (it in above) {
                at = it
                for (steps = 0; at != top && (at in above) && steps < 64; steps++) at = above[at]
                if (at == top) print it
            }
        }'); do
        size=$(awk '/^Pss:/ { print $2 }' "/proc/$it/smaps_rollup" 2>/dev/null)
        [ -n "$size" ] || size=$(awk '/^VmRSS:/ { print $2 }' "/proc/$it/status" 2>/dev/null)
        sum=$((sum + ${size:-0}))
    done
    echo "$sum"
}

# Runs a command in the clone on so many processors, with the clone's kit, and prints what came of it.
measure() {
    local what=$1 processors=$2 command=$3 begun most=0 now status
    begun=$SECONDS
    (
        cd -- "$room/pgtools" || exit 1
        export PATH=$room/kit/bin:$PATH TMPDIR=$room/tmp HOME=$room/home
        exec taskset -c "0-$((processors - 1))" bash -c "$command"
    ) </dev/null >"$room/told" 2> >(tee "$room/complained" >&2) &
    child=$!
    while kill -0 "$child" 2>/dev/null; do
        now=$(memory_of "$child")
        [ "$now" -le "$most" ] || most=$now
        sleep 0.5
    done
    wait "$child"
    status=$?
    child=
    [ "$status" -eq 0 ] || failed=1
    printf '%s on %s processors: status %s, %s minutes, at most %s MB in use\n' "$what" "$processors" "$status" \
        "$(awk -v s=$((SECONDS - begun)) 'BEGIN { printf "%.1f", s / 60 }')" "$((most / 1024))"
}

# Says whether the first command's output is that which README shows.
compare() {
    if grep -qxF -- "$(wanted_line)" "$room/complained" && grep -q '^; Archive created' "$room/told" && grep -q '^[0-9]' "$room/told"; then
        echo "the output is README's"
    else
        echo "the output is not README's:"
        tail -n 5 -- "$room/complained" "$room/told"
        failed=1
    fi
}

# One newcomer, with so many processors.
newcomer() {
    local what=$1 processors=$2
    if ! room=$(mktemp -d) || ! mkdir -- "$room/tmp" "$room/home" || ! chmod 711 -- "$room" "$room/tmp" ||
        ! git clone -q -- "$top" "$room/pgtools" || ! kit_in "$room/kit"; then
        echo "no folder for a newcomer can be made"
        exit 1
    fi
    if [ "$what" = prove ]; then
        measure "./prove" "$processors" ./prove
    fi
    measure "the first command" "$processors" "$(first_command)"
    compare
    # (no toolchain is asked once the program is there)
    (cd -- "$room/pgtools" && TIMEFORMAT='a second call takes %R seconds' && time ./pgtools --help >/dev/null && ls out/pgtools-*) || failed=1
    end_all
}

trap end_all EXIT
trap 'exit 129' HUP
trap 'exit 130' INT
trap 'exit 143' TERM

what=${1:-all}
[ $# -eq 0 ] || shift
[ $# -gt 0 ] || set -- 4 2
case $what in
    first | prove) whats=$what ;;
    all) whats='first prove' ;;
    *) sed -n '5,8 s/^# *//p' "${BASH_SOURCE[0]}" && exit 2 ;;
esac
echo "$(uname -m), $(nproc) processors, $(awk '/^MemTotal:/ { print int($2 / 1048576) }' /proc/meminfo) GB; $(git -C "$top" log -1 --format='%h of %cs'); $(rt version)"
for what in $whats; do
    for processors in "$@"; do
        newcomer "$what" "$processors"
    done
done
exit "$failed"
