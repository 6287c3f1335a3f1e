#!/usr/bin/env bash
# Types the commands of docs/GUIDE.md, and compares what they print with what stands there. Compares the man page with the help of the
# program. PROGRAM names another one. The last line is 'N passed, M failed'.
set -u
here=$(CDPATH='' cd -- "$(dirname -- "${BASH_SOURCE[0]}")/.." && pwd) || exit 1
program=$(readlink -f -- "${PROGRAM:-$here/crates/ctt_tool/out/ctt_tool}")
room=$(mktemp -d) || exit 1
trap 'rm -rf -- "$room"' EXIT
mkdir "$room/top"
cp -r -- "$here/examples" "$room/top"
printf '#!/usr/bin/env bash\nexec -a timedesk %q "$@"\n' "$program" >"$room/top/timedesk"
chmod +x "$room/top/timedesk"
cd -- "$room/top" || exit 1
export LC_ALL=C.UTF-8

passed=0
failed=0

# Counts a comparison of two files.
equals() {
    if cmp -s -- "$2" "$3"; then
        passed=$((passed + 1))
    else
        failed=$((failed + 1))
        echo "FAILED: $1"
        diff -- "$2" "$3" | head -n 10
    fi
}

# Types a command of the page, in this shell, so that the next one stands where it leads.
type_command() {
    [ -n "$command" ] || return
    eval "$command" >"$room/found" 2>&1 </dev/null
    equals "$command" "$room/found" "$room/wanted"
    command=
}

command=
where=text
while IFS= read -r line; do
    case $where:$line in
    'text:```console') where=block ;;
    'block:```')
        type_command
        where=text
        ;;
    'block:$ '*)
        type_command
        command=${line#'$ '}
        : >"$room/wanted"
        ;;
    block:*) printf '%s\n' "$line" >>"$room/wanted" ;;
    esac
done <"$here/docs/GUIDE.md"

# the pictures that the page names are there
grep -o '](page-[^)]*' "$here/docs/GUIDE.md" | cut -c 3- | sort >"$room/wanted"
(cd -- "$here/docs" && printf '%s\n' page-*) >"$room/found"
equals 'the pictures' "$room/found" "$room/wanted"

# the man page: nothing to warn of, and each command with the options that it has
page=$here/docs/timedesk.1
: >"$room/wanted"
if [ -n "$(type -P groff)" ]; then
    groff -man -ww -z -- "$page" >"$room/found" 2>&1
    equals 'the man page' "$room/found" "$room/wanted"
elif [ -n "$(type -P mandoc)" ]; then
    mandoc -T lint -W warning -- "$page" >"$room/found" 2>&1
    equals 'the man page' "$room/found" "$room/wanted"
else
    echo "neither groff nor mandoc is installed, so nobody has read the man page"
fi
sed -n 's/^\.B timedesk //p' "$page" | sort >"$room/wanted"
"$program" --help | sed -n '/^Commands:/,/^$/s/^  \([a-z]*\) .*/\1/p' | sort >"$room/found"
equals 'the commands of the man page' "$room/found" "$room/wanted"
mapfile -t names < <(grep -vx help "$room/wanted")
for name in "${names[@]}"; do
    sed -n "/^\.B timedesk $name\$/,/^\.\(br\|SH\)/p" "$page" | sed 's,\\,,g' | grep -o -e '--[a-z]*' | sort >"$room/wanted"
    "$program" "$name" --help 2>&1 | sed -n '/^Options:/,$s/^ *\(--[a-z]*\).*/\1/p' | sort >"$room/found"
    equals "the options of $name" "$room/found" "$room/wanted"
done

# and those of office
sed -n 's/^\.B office //p' "$page" | sort -u >"$room/wanted"
"$here/office" --help | sed -n 's/^    \([a-z][a-z]*\)  .*/\1/p' | sort >"$room/found"
equals 'the commands of office in the man page' "$room/found" "$room/wanted"
mapfile -t names <"$room/found"
for name in "${names[@]}"; do
    sed -n "0,/^\.SH DESC/{/^\.B office $name\$/,/^\.\(br\|SH\)/p}" "$page" | sed 's,\\,,g' | grep -o -e '--[a-z-]*' | sort >"$room/wanted"
    "$here/office" "$name" --help | sed -n '/^option/,${/--help/d;s/^  \(-.*, \)\?\(--[a-z-]*\).*/\2/p}' | sort >"$room/found"
    equals "the options of office $name" "$room/found" "$room/wanted"
done

echo "$passed passed, $failed failed"
[ "$failed" = 0 ]
