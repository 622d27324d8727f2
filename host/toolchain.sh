# What the scripts of this repository have in common: help, commands that end with their script, one script at a time,
# and Debian's packages where they are missing, cargo and rustc among them. A script that sources it has set
#
#   self     its own real path, whose head comment is its help
#   root     the repository's folder
#   name     its name in messages
#   log      the file that takes what its commands say
#   broken   its exit status where something cannot be had or built
: "${name:=${0##*/}}" "${log:=/dev/null}" "${broken:=1}"
drawn=

# say MESSAGE: on standard error; a line that was drawn to be drawn over (`drawn`) ends first.
say() {
    echo "${drawn:+$'\n'}$name: $*" >&2
    drawn=
}

fail() {
    say "$*"
    exit "$broken"
}

# refuse MESSAGE: ends a script whose words are wrong.
refuse() {
    say "$*"
    sed -n "s|^#   \(\(\./\)\{0,1\}$name\>.*\)|usage: \1|p" "$self" >&2
    exit 2
}

# answer_help WORD..: where one of the words asks for it, the script's head comment is its whole answer.
answer_help() {
    local word
    for word in "$@"; do
        if [ "$word" = --help ] || [ "$word" = -h ]; then
            sed -n '2,${/^#/!q; s/^# \{0,1\}//p}' "$self"
            exit 0
        fi
    done
}

# begin COMMAND..: starts a command as a process group of its own ($!), which does not hold the script's lock.
begin() {
    set -m
    (trap '' TTOU && "$@") < /dev/null 9>&- &
    set +m
}

# attended COMMAND..: runs a command; a signal that ends the script ends all of the command's processes first.
attended() {
    begin "$@"
    wait "$!"
}

# The signals that end a script: its commands are ended, then waited for, and what stays for three seconds is killed.
stopped() {
    local group groups
    set +e
    trap '' HUP INT TERM
    groups=$(jobs -p)
    for group in $groups; do
        kill -TERM -- "-$group" || kill -TERM "$group"
    done 2> /dev/null
    wait 2> /dev/null
    for group in $groups; do
        for _ in {1..30}; do
            kill -0 -- "-$group" || break
            sleep 0.1
        done
        kill -KILL -- "-$group"
    done 2> /dev/null
    say "stopped"
    exit $((128 + $1))
}
trap 'stopped 1' HUP
trap 'stopped 2' INT
trap 'stopped 15' TERM

# into_log COMMAND..: becomes the command, which says all into the log.
into_log() {
    exec "$@" >> "$log" 2>&1
}

# log_fails COMMAND..: ends the script where a command has failed, with the log's end.
log_fails() {
    say "this failed: $* ($log)"
    tail -n 40 "$log" >&2
    exit "$broken"
}

# quietly COMMAND..: runs a command into the log; where it fails, the script ends.
quietly() {
    attended into_log "$@" || log_fails "$@"
}

# alone FILE: no other script holds this lock, from here to the script's end; the one that has to wait says so.
alone() {
    exec 9> "$1"
    flock -n 9 && return
    say "waits for another that is at work here ($1)"
    flock 9 &
    wait "$!" || fail "cannot lock $1"
}

# at_least LEAST VERSION
at_least() {
    printf '%s\n' "$1" "$2" | sort -V -C
}

# The compiler's version; nothing where cargo or rustc is missing.
rust_version() {
    if command -v cargo > /dev/null && command -v rustc > /dev/null; then
        rustc --version | awk '{ print $2 }'
    fi
}

# rust_is LEAST: is there a compiler, of this version or a later one?
rust_is() {
    local version
    version=$(rust_version)
    [ -n "$version" ] && at_least "$1" "$version"
}

# debian LEAST [PACKAGE...]: installs packages that are missing and, where LEAST is a version and not empty, a compiler:
# rustc, or rustc-web where rustc is older than that. Without root, or without apt-get, it says what is missing.
debian() {
    local least=$1 web='' packages=("${@:2}")
    if ! command -v apt-get > /dev/null; then
        fail "missing, and there is no apt-get here to install it from Debian:" \
            "${least:+rustc and cargo, $least or later}${packages[*]}"
    fi
    [ "$(id -u)" -ne 0 ] || quietly apt-get -qq update
    if [ -n "$least" ]; then
        at_least "$least" "$(apt-cache policy rustc | awk '/Candidate:/ { print $2 }')" || web=-web
        packages+=("rustc$web" "cargo$web")
    fi
    [ "$(id -u)" -eq 0 ] || fail "packages of Debian are missing; as root: apt-get install ${packages[*]}"
    say "installs packages of Debian: ${packages[*]}"
    quietly env DEBIAN_FRONTEND=noninteractive apt-get -qq install -y --no-install-recommends "${packages[@]}"
}

# debian_crates FOLDER CRATE..: what FOLDER's crate needs, installed where it is neither in Debian's folder nor found by
# cargo elsewhere.
debian_crates() {
    local folder=$1 crate packages=()
    shift
    for crate in "$@"; do
        compgen -G "/usr/share/cargo/registry/$crate-[0-9]*" > /dev/null || packages+=("librust-$crate-dev")
    done
    [ ${#packages[@]} -gt 0 ] || return 0
    (cd "$folder" && cargo metadata --offline --format-version 1 > /dev/null 2>&1) || debian "" "${packages[@]}"
}

# What compiling rustyline's text takes. The compiler is left alone where there is one; line_buffer.rs needs 1.88, with
# which its let chains came.
debian_for_rustyline() {
    local least=1.88
    [ -n "$(rust_version)" ] || debian "$least"
    rust_is "$least" || fail "rustc is $(rust_version), line_buffer.rs needs $least"
    debian_crates "$root/differential" unicode-segmentation unicode-width log
}
