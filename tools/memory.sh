# The limit on the program's memory, as bin/rtosim and bin/build give it; both read this file into a POSIX shell. It is on what Linux
# counts as data (RLIMIT_DATA): heaps, stacks of threads and all memory that is mapped and may be written. docs/decisions/launcher.md says why.
#
#     read_memory     sets `limit` to the kilobytes that RTOSIM_MEMORY asks for, to nothing where it isn't set or is empty; status 1
#                     where it is no amount
#     limit_memory    gives this process that limit, otherwise nine tenths of what is free; never a higher one than it has

# (below another folder in tests)
system=
# With less the program can't even say that it has too little.
least=1024
# So much is given where nearly nothing is free, and 2^62 bytes at most.
least_given=16384
greatest=4503599627370496

read_memory() {
    limit=
    [ -n "${RTOSIM_MEMORY-}" ] || return 0
    number=${RTOSIM_MEMORY%[KMG]}
    case $number in
    '' | 0* | *[!0123456789]* | ????????????????*) return 1 ;;
    esac
    case $RTOSIM_MEMORY in
    *G) limit=$(((number < 1000000000 ? number : 1000000000) * 1048576)) ;;
    *M) limit=$((number * 1024)) ;;
    *K) limit=$number ;;
    *) limit=$((number / 1024)) ;;
    esac
    [ "$limit" -le $greatest ] || limit=$greatest
    [ "$limit" -ge $least ]
}

# Lowers `free` to what a control group has free, the files of which it keeps copies included. Its folder, the files of its limit and
# of its use, and how its names of such copies begin.
look_at_group() {
    read -r most <"$1/$2" && read -r used <"$1/$3" || return 0
    case $most in
    *[!0123456789]* | ??????????????????*) return 0 ;;
    esac
    copies=0
    while read -r name number; do
        case $name in
        "$4inactive_file" | "$4active_file") copies=$((copies + number)) ;;
        esac
    done <"$1/memory.stat"
    room=$(((most - used + copies) / 1024))
    [ "$free" -le "$room" ] || free=$room
}

# The same for the group of this path, and for those that it is in. Of a path that isn't there, as in a container, for the outermost.
look_at_groups() {
    folder=$1 path=${2%/}
    shift 2
    while look_at_group "$folder$path" "$@" && [ -n "$path" ]; do
        path=${path%/*}
    done
}

# Sets `free` to the kilobytes that the machine and its control groups, of version 1 or 2, have free without swapping.
find_free() {
    free=$greatest
    while read -r name number _; do
        case $name in
        MemAvailable:) free=$number && break ;;
        esac
    done <"$system/proc/meminfo"
    while IFS=: read -r _ controllers path; do
        case ,$controllers, in
        ,,) look_at_groups "$system/sys/fs/cgroup" "$path" memory.max memory.current '' ;;
        *,memory,*) look_at_groups "$system/sys/fs/cgroup/memory" "$path" memory.limit_in_bytes memory.usage_in_bytes total_ ;;
        esac
    done <"$system/proc/self/cgroup"
}

limit_memory() {
    if [ -z "$limit" ]; then
        find_free
        limit=$((free / 10 * 9))
        [ "$limit" -ge $least_given ] || limit=$least_given
    fi
    has=$(ulimit -S -d)
    [ "$has" != unlimited ] && [ "$has" -le "$limit" ] || ulimit -S -d "$limit"
} 2>/dev/null
