# Makes the proved archives for this machine and builds the programs of the bench: sourced by bench/trap and bench/posts, in bench/.
# It leaves in $programs where they are, and in $room a folder that is there until the end. CURBIZZOLU_LIB_DIR names another folder
# of archives, which are taken as they are.
if [ -z "${CURBIZZOLU_LIB_DIR:-}" ]; then
    ../tools/archive in_place >/dev/null
    ../tools/archive words_entry >/dev/null
fi
# The library has no table of jumps (tools/archive), which a mix likes better. So plain Rust has none either, where rustc can be told.
case $(uname -m) in
    aarch64) never=-aarch64-min-jump-table-entries=1000 ;;
    riscv64) never=-riscv-min-jump-table-entries=1000 ;;
    *) never=-min-jump-table-entries=1000 ;;
esac
tables="plain Rust without tables of jumps, as the library"
room=$(mktemp -d)
trap 'rm -rf "$room"' EXIT
: >"$room/empty.rs"
if rustc -C "llvm-args=$never" --crate-type lib --emit obj --out-dir "$room" "$room/empty.rs" 2>/dev/null; then
    export RUSTFLAGS="${RUSTFLAGS:+$RUSTFLAGS }-C llvm-args=$never"
    unset CARGO_ENCODED_RUSTFLAGS # it would be taken in its place
else
    tables="plain Rust with tables of jumps: rustc takes no $never"
fi
cargo build --quiet --release --offline
programs=${CARGO_TARGET_DIR:-target}/release

instructions() { # PROGRAM WORDS..: how many a run takes, or nothing
    valgrind --tool=callgrind --callgrind-out-file=/dev/null "$@" 2>&1 | sed -n 's/.*Collected : //p'
}
machine() { # what the figures are of
    echo "Processor: $(lscpu | sed -n 's/^Model name: *//p' | head -n 1), $(uname -m). $(rustc --version), $tables. $(cat "$(../tools/kit)/KIT-ID")."
}
