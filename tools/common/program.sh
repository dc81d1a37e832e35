# Sourced by ./serve and ./demo: where the program is, and whether it is built of the sources as
# they are.
program=$top/crates/xq_serve/out/xq_serve

is_current() {
    [ -x "$program" ] || return 1
    [ -z "$(find "$top/crates.txt" "$top"/crates/*/src "$top"/crates/*/specs \
        "$top"/crates/*/proofs -type f -newer "$program" -print -quit 2>/dev/null)" ]
}
