# shellcheck shell=bash
# Read by other commands of tools/, which define missing_packages: the packages that are missing, a line each, and have a folder $work.
# require_packages COMMAND installs them where it may (as root, with apt-get); otherwise it names them for that command, and ends it with 1.

# The rest: packages. Package lists may be old or not there at all, and are fetched then; a mirror that does not answer is asked three times.
install_packages() {
    local -x DEBIAN_FRONTEND=noninteractive
    local attempt
    apt-get install -y --no-install-recommends --no-remove "$@" && return
    for attempt in 1 2 3; do
        [ "$attempt" = 1 ] || sleep 20
        apt-get update && apt-get install -y --no-install-recommends --no-remove "$@" && return
    done
    return 1
}

require_packages() {
    local missing
    mapfile -t missing < <(missing_packages)
    if [ "${#missing[@]}" -gt 0 ] && [ "$(id -u)" = 0 ] && command -v apt-get > /dev/null; then
        echo "installing ${missing[*]}" >&2
        # shellcheck disable=SC2154
        install_packages "${missing[@]}" > "$work/log" 2>&1 || cat "$work/log" >&2
        mapfile -t missing < <(missing_packages)
    fi
    if [ "${#missing[@]}" -gt 0 ]; then
        echo "$1: missing, as Debian names the packages: ${missing[*]}" >&2
        echo "$1: install them, as root: apt-get install ${missing[*]}" >&2
        exit 1
    fi
}
