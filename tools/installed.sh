#!/usr/bin/env bash
# Runs the installed program. The file `about` beside it says what it was built from.
set -u

self=$(readlink -f -- "${BASH_SOURCE[0]}")
here=${self%/*}
way=$(sed -n 's/^\(proved\|unproved\): .*/\1/p' "$here/about")

say() {
    echo "timedesk: $*" >&2
}

case ${1-} in
--proved | --unproved)
    if [ "$1" != "--$way" ]; then
        say "the program that is installed here is the $way one"
        exit 3
    fi
    shift
    ;;
esac
[ "$way" = proved ] || say "unproved build"
if grep -q '^speed: .* checked$' "$here/about"; then
    # a report of leaks would take the place of the program's status
    export ASAN_OPTIONS=detect_leaks=0
fi
case $* in
--build) exit ;;
-V | --version)
    "$here/ctt_tool" --version && cat -- "$here/about"
    exit
    ;;
esac

# the words of usage name the command that the user typed
exec -a timedesk "$here/ctt_tool" "$@"
