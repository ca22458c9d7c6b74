# Sourced by demo and rust/run: installs Debian's packages of what is missing.

# as_root COMMAND..: as whoever may change the machine.
as_root() {
    if [ "$(id -u)" = 0 ]; then "$@"; else sudo "$@"; fi
}

# needs WHAT..: each is COMMAND=PACKAGE, or a package of its own where it has no command. Somebody who sits at the terminal is
# asked first.
needs() {
    local what answer missing=() apt=(as_root env DEBIAN_FRONTEND=noninteractive apt-get)
    for what in "$@"; do
        case $what in
            *=*) command -v "${what%%=*}" >/dev/null || missing+=("${what#*=}") ;;
            *) dpkg -s "$what" >/dev/null 2>&1 || missing+=("$what") ;;
        esac
    done
    [ ${#missing[@]} -gt 0 ] || return 0
    if [ -t 0 ]; then
        read -r -p "these Debian packages are needed: ${missing[*]}; install them? [y/N] " answer
        case $answer in
            [yY]*) ;;
            *)
                echo "without them it does not go on" >&2
                return 1
                ;;
        esac
    fi
    echo "installing ${missing[*]}"
    "${apt[@]}" update -qq && "${apt[@]}" install -y -qq --no-install-recommends "${missing[@]}" >/dev/null || {
        echo "these Debian packages are needed and could not be installed: ${missing[*]}" >&2
        return 1
    }
}

# What the tool stands on.
tool_packages=(librust-libc-dev librust-memmap2-dev)
