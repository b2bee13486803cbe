# Names on standard error the sections and keys of an application that `run`, `campaign` and `explore` ignore, as rtosim-check does.
# bin/rtosim reads this file into a POSIX shell.
#
#     look_for_ignored PROGRAM WORDS   the words begin with the command; PROGRAM is empty where none is built
#
# A plain application without any costs one call of awk (tools/plain_application.awk). Any other is read by Python. Nothing is said where
# RTOSIM_WARNINGS is `no`, of FILE that is a pipe or has more than a megabyte, or where awk or Python lacks.

# Sets `file` to FILE among these words, which follow the command; status 1 where they aren't words as the program takes them.
find_file() {
    file=
    while [ $# -gt 0 ]; do
        case $1 in
        --at | --handler | --workers | --stride | --block | --only | --shard | --point | --injections | --handlers)
            [ $# -gt 1 ] || return 1
            shift
            ;;
        --)
            [ -z "$file" ] && [ $# = 2 ] || return 1
            file=$2
            return
            ;;
        -*) ;;
        *)
            [ -z "$file" ] || return 1
            file=$1
            ;;
        esac
        shift
    done
    [ -n "$file" ]
}

look_for_ignored() {
    asked=$1
    case ${RTOSIM_WARNINGS-},${2-} in
    no,*) return ;;
    *,run | *,campaign | *,explore) shift 2 ;;
    *) return ;;
    esac
    find_file "$@" && [ -f "$file" ] && [ -r "$file" ] && command -v awk >/dev/null || return
    LC_ALL=C awk -f "$root/tools/plain_application.awk" <"$file" >/dev/null 2>&1
    [ $? = 1 ] && command -v python3 >/dev/null || return
    python3 "$root/tools/ignored_lines.py" "$file" "$asked" 2>&3
} 3>&2 2>/dev/null
