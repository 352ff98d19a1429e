# Sourced by check, bench and view: builds the peer and says how to find a program under test.

peer=$(cd "$(dirname "$0")" && pwd)
root=$(dirname "$peer")
built=$peer/target/release

cargo build --release --offline --quiet --manifest-path "$peer/Cargo.toml" >&2

# program NAME VARIABLE VALUE: the program that the variable's value names, with its arguments if
# it has any; where that is empty, crates/NAME/out/NAME, proved and built by `rt run` where the
# repository has that crate.
program() {
    named=$3
    if [ -z "$named" ]; then
        named=$root/crates/$1/out/$1
        if command -v rt >/dev/null && grep -qw "$1" "$root/crates.txt"; then
            (cd "$root/crates/$1" && rt run </dev/null) >&2 || return 2
        fi
        if [ ! -x "$named" ]; then
            echo "$0: $named is not built; name a program in $2" >&2
            return 2
        fi
    fi
    echo "$named"
}
