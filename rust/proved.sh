# shellcheck shell=bash
# Makes the archive of the proved library and the printing program. To be sourced by bash, at the top of the
# repository, by a script that then works there: it holds the lock until it ends.
# Both are for x86-64 Linux, and the kit proves and builds there alone: on another machine this stops here.

if [ "$(uname -sm)" != "Linux x86_64" ]; then
    echo "$0: this needs x86-64 Linux: the Rattle kit, and what it makes, run nowhere else" >&2
    exit 2
fi
if ! command -v rt >/dev/null; then
    echo "$0: rt is not there: it belongs to the Rattle kit, which proves and builds all that is made here" >&2
    exit 2
fi

# One script at a time: two would write the same files, and the gate removes them. The lock is on the folder itself,
# and the scripts that this one starts have it too.
if ! [ /dev/fd/9 -ef . ]; then
    exec 9<.
    if ! command -v flock >/dev/null; then
        echo "$0: flock is not there, so nothing keeps a second run from working here at the same time" >&2
    elif ! flock -n 9; then
        echo "$0: another run is at work in this folder; waiting until it ends" >&2
        flock 9
    fi
fi

# Asks rt in the folder of a crate. What it says goes to a log, and is shown where it fails.
ask_rt() { # WORD CRATE
    mkdir -p target
    echo "rt $1 in crates/$2" >&2
    if ! (cd "crates/$2" && rt "$1") </dev/null >target/rt.log 2>&1; then
        cat target/rt.log >&2
        echo "$0: rt $1 in crates/$2 failed; what it said stands above, and in target/rt.log" >&2
        return 1
    fi
}

# The printing program. rt knows by content whether it is made, and runs it, here on no input.
# shellcheck disable=SC2034 # the scripts read it
program=$PWD/crates/print/out/print
make_program() { ask_rt run print; }

# The archive. rt makes it anew each time it is asked, so it is asked where the kit, the crates or the archive itself
# is not what it was when it was made. rt ci removes the archive.
archive=crates/exports/out/libexports.a
make_archive() {
    local made_from
    made_from=$(what_is_proved) || return
    [ "$(made_from_and_archive "$made_from" 2>/dev/null)" != "$(cat "$archive.of" 2>/dev/null)" ] || return 0
    ask_rt lib exports || return
    if ! [ -s "$archive" ]; then
        echo "$0: $archive is not there, or empty, though it was just made" >&2
        return 1
    fi
    made_from_and_archive "$made_from" >"$archive.of"
}
what_is_proved() {
    rt version
    find crates -path 'crates/*/out' -prune -o -type f \( -name '*.rt' -o -name '*.antt' \) -print0 |
        sort -z | xargs -0 sha256sum crates.txt
}
made_from_and_archive() { # WHAT
    echo "$1"
    sha256sum "$archive"
}

# Cargo goes by times: an archive other than the one that was linked last is given a new one.
renew_for_cargo() {
    mkdir -p rust/target
    sha256sum --check --status rust/target/linked.of 2>/dev/null && return
    touch "$archive"
    sha256sum "$archive" >rust/target/linked.of
}

# The comparison program, linked to the archive.
run_comparison() { # WORDS..
    make_archive || return
    renew_for_cargo
    cargo run --quiet --release --manifest-path rust/Cargo.toml -- "$@"
}
