# What the scripts that run the built program share: a folder for its output, and how that is judged. Read by `.`.
# FUSEWORLD names another program.
program=$(realpath -m "${FUSEWORLD:-crates/fuseworld/out/fuseworld}")
work=$(mktemp -d)
trap 'rm -rf "$work"' EXIT
passed=0
failed=0

# judge NAME STATUS WANTED-STATUS: compares the files out and err with want-out and want-err.
judge() {
    if [ "$2" = "$3" ] && cmp -s "$work/out" "$work/want-out" && cmp -s "$work/err" "$work/want-err"; then
        passed=$((passed + 1))
    else
        echo "not ok $1 (status $2, wanted $3)"
        diff "$work/want-out" "$work/out"
        diff "$work/want-err" "$work/err"
        failed=$((failed + 1))
    fi
}

# expect NAME STATUS OUTPUT FAULT ARGUMENTS..: runs the program on the file in.
expect() {
    name=$1
    status=$2
    printf %s "$3" > "$work/want-out"
    printf %s "$4" > "$work/want-err"
    shift 4
    "$program" "$@" < "$work/in" > "$work/out" 2> "$work/err"
    judge "$name" $? "$status"
}
