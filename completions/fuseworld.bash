# Completion of fuseworld's command line for bash.
_fuseworld() {
    local word=${COMP_WORDS[COMP_CWORD]} commands="run socket draw frame reply decode check vectors serve drive kernel server help" flags="" words="" files=no
    COMPREPLY=()
    if [ "$COMP_CWORD" -le 1 ]; then
        flags="--help --version"
        words=$commands
    else
        case ${COMP_WORDS[1]} in
            run) flags="--hex --help"; files=yes ;;
            socket) flags="--help"; files=yes ;;
            draw) flags="--around --help"; files=yes ;;
            frame) flags="--words --any --help" ;;
            reply)
                flags="--any --asked --help"
                [ "$COMP_CWORD" -gt 2 ] || words="LOOKUP GETATTR MKDIR UNLINK RMDIR RENAME LINK OPEN READ WRITE RELEASE INIT READDIR CREATE INTERRUPT READDIRPLUS"
                ;;
            decode) flags="--help"; files=yes ;;
            check) flags="--server --kernel --json --node --summary --strict --joined --help"; files=yes ;;
            vectors) flags="--all --help" ;;
            serve) flags="--found --missing --minor --show --trace --check --capture --help"; files=yes ;;
            drive) flags="--calls --beside --no-opendir --trace --json --check --report-only --capture --wait --offer --random --any --quick --seed --events --orders --number --nth --help"; files=yes ;;
            kernel | server) flags="--json --help" ;;
            help) words=$commands ;;
        esac
    fi
    case $word in
        -*) mapfile -t COMPREPLY < <(compgen -W "$flags" -- "$word") ;;
        *)
            mapfile -t COMPREPLY < <(compgen -W "$words" -- "$word")
            if [ "$files" = yes ]; then
                compopt -o filenames 2> /dev/null
                mapfile -t -O "${#COMPREPLY[@]}" COMPREPLY < <(compgen -f -- "$word")
            fi
            ;;
    esac
}
complete -F _fuseworld fuseworld
