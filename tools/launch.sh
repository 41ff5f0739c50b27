# What ./run, ./trace and ./live have in common: to be read by them, with `name` (the wrapper's) and `crate` (the program's) set.
# A script is a file, or standard input; further words go to the program. The exit status is the program's.

program=$top/crates/$crate/out/$crate

# whether the proved program is newer than everything that it is made of
is_current() {
    [ -x "$program" ] || return 1
    local newer
    newer=$(find "$top/crates.txt" "$top"/crates/*/src "$top"/crates/*/specs "$top"/crates/*/proofs \
        -newer "$program" -print -quit 2>/dev/null)
    [ -z "$newer" ]
}

# says which program it uses, and runs it
launch() {
    if is_current; then
        echo "$name: the proved program" >&2
        "$program" "$@"
    else
        echo "$name: an unproved try of the program (the proved one is made by: cd crates/$crate && rt run)" >&2
        (cd "$top/crates/$crate" && rt try -- "$@")
    fi
}

# takes the script's name off the words, and reads the script from that file
open_script() {
    if [ $# -eq 0 ] && [ -t 0 ]; then
        echo "$name: a script is read from this terminal, to its end (./$name --help says more)" >&2
    fi
    script=${1:--}
    if [ "$script" != - ]; then
        if [ ! -f "$script" ] || [ ! -r "$script" ]; then
            echo "$name: cannot read $script" >&2
            exit 4
        fi
        exec <"$script"
    fi
}
