# shellcheck shell=bash disable=SC2154
# What every script needs, to be sourced by bash with `name`, the script, and `root`,
# the repository, set: commands that must be there, output that arrives whole, words of
# the user in messages, one command at a time that proves.

# package_of COMMAND: the Debian packages that have it; nothing where there are none.
package_of() {
    case $1 in
        gcc) echo gcc libc6-dev ;;
        g++) echo g++ ;;
        # On Debian 12 these are newer than cargo and rustc, which later releases have alone.
        cargo) newest cargo-web cargo ;;
        rustc) newest rustc-web rustc ;;
    esac
}
newest() {
    if [ -n "$(apt-cache madison "$1" 2>/dev/null)" ]; then echo "$1"; else echo "$2"; fi
}

# need [--install] COMMAND...: sees that each command is there. All are looked for
# first; what is missing is named, with the line that installs it. With --install
# and run as root it is installed, which is said before it is done, and only where
# nothing is missing that cannot be. Answers 1 where a command stays missing.
need() {
    local install=0 command packages=() others=() absent=()
    if [ "$1" = --install ]; then
        install=1
        shift
    fi
    for command in "$@"; do
        command -v "$command" >/dev/null && continue
        absent+=("$command")
        case $command in
            gcc | g++ | cargo | rustc) ;;
            *) others+=("$command") ;;
        esac
    done
    [ ${#absent[@]} -gt 0 ] || return 0
    if [ ${#others[@]} -eq 0 ] && [ "$install" -eq 1 ] && [ "$(id -u)" -eq 0 ] && command -v apt-get >/dev/null; then
        echo "$name: installing what is missing (${absent[*]}) with apt-get" >&2
        apt-get update -q >&2
        for command in "${absent[@]}"; do
            # shellcheck disable=SC2046
            DEBIAN_FRONTEND=noninteractive apt-get install -y -q --no-install-recommends $(package_of "$command") >&2
        done
    fi
    others=()
    for command in "${absent[@]}"; do
        command -v "$command" >/dev/null && continue
        others+=("$command")
        case $command in
            rt) echo "$name: the command 'rt' is missing: it is the Rattle kit's; put the kit's bin folder on the path" >&2 ;;
            gcc | g++ | cargo | rustc)
                echo "$name: the command '$command' is missing" >&2
                # shellcheck disable=SC2207
                packages+=($(package_of "$command"))
                ;;
            *) echo "$name: the command '$command' is missing" >&2 ;;
        esac
    done
    if [ ${#packages[@]} -gt 0 ]; then
        echo "$name: on Debian this installs it: apt-get install ${packages[*]}" >&2
    fi
    [ ${#others[@]} -eq 0 ]
}

# printed COMMAND...: runs the command, a function of the script, and answers its
# status; or 1, with a message, where what it prints does not arrive whole.
printed() {
    local statuses
    "$@" | cat
    statuses=("${PIPESTATUS[@]}")
    if [ "${statuses[1]}" -ne 0 ]; then
        echo "$name: writing the output failed; what was printed is not whole" >&2
        return 1
    fi
    return "${statuses[0]}"
}

# open_output: answers 1, with a message, where standard output is closed.
open_output() {
    if ! { { :; } 3>&1; } 2>/dev/null; then
        echo "$name: standard output is closed" >&2
        return 1
    fi
}

# readable FILE: answers 1, with a message, where it is no file that can be read.
readable() {
    local wrong
    if [ -d "$1" ]; then
        wrong='Is a directory'
    elif [ ! -e "$1" ]; then
        wrong='No such file or directory'
    elif [ ! -r "$1" ]; then
        wrong='Permission denied'
    else
        return 0
    fi
    printf '%s: %s: %s\n' "$name" "$(shown "$1")" "$wrong" >&2
    return 1
}

# shown WORDS: as messages show them: control characters escaped, the last 40 characters.
shown() {
    local words
    printf -v words '%q' "$1"
    case $words in
        \$\'*) ;;
        *) words=$1 ;;
    esac
    [ ${#words} -le 40 ] || words=..${words: -38}
    printf '%s' "$words"
}

# bad_usage WORDS: says what is wrong with the words of the command, and its usage.
bad_usage() {
    echo "$name: $1" >&2
    usage >&2
    exit 2
}

# locked COMMAND...: runs the command while no other that proves runs in the repository
# `root`; waits for one, and says so.
locked() {
    local status
    if command -v flock >/dev/null && exec 8<"$root/crates.txt"; then
        if ! flock -n 8; then
            echo "$name: waiting for another command that proves here" >&2
            flock 8
        fi
        "$@" 8<&-
        status=$?
        exec 8<&-
        return "$status"
    fi
    "$@"
}
