# What bash completes for p11, p11-terminal, p11-many and p11-verify: options as --help has them, behind --talk the names that it
# boots, and else names of files.

_p11() {
    local command=$1 word=$2 before=$3 list words=
    case $before in
    --talk)
        list=$(readlink -f "$(type -P "$command")")
        words=$(sed -n 's/^\([a-z0-9][a-z0-9-]*\) *|.*/\1/p' "${list%/bin/*}/share/doc/p11/examples/boots.txt" 2>/dev/null)
        ;;
    esac
    case $word in
    -*) words=$("$command" --help 2>/dev/null | grep -oE -- '(^|[^a-z-])--[a-z][a-z-]*' | grep -oE -- '--.*' | sort -u) ;;
    esac
    mapfile -t COMPREPLY < <(compgen -W "$words" -- "$word")
}

complete -o default -F _p11 p11 p11-terminal p11-many p11-verify
