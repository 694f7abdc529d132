# What the tests of the program have in common; each of them sources this file. A test ends with the line
# 'N passed, M failed', and with status 1 where anything failed.
set -uo pipefail

top=$(cd "$(dirname "${BASH_SOURCE[0]}")/.." && pwd)
program=$top/crates/drmsim/out/drmsim
cd "$top" || exit 1
room=$(mktemp -d)
trap 'rm -rf "$room"' EXIT
passed=0
failed=0

# a missing tool is a failure that names it
want_tool() {
    if ! command -v "$1" >/dev/null; then
        echo "FAILED: there is no '$1': install $2"
        echo "0 passed, 1 failed"
        exit 1
    fi
}

# the program has to be there, and to be that of the sources
want_program() {
    if ! "$top/bin/proved" check; then
        echo "FAILED: the program is not proved and built here: run bin/build"
        echo "0 passed, 1 failed"
        exit 1
    fi
}

# the library that counts allocations and refuses one
make_refuse_memory() {
    want_tool cc "a C compiler (gcc)"
    if ! cc -Wall -shared -fPIC -O1 -o "$room/refuse_memory.so" "$top/tests/refuse_memory.c" -ldl; then
        echo "FAILED: tests/refuse_memory.c does not compile: install the headers of the C library (libc6-dev)"
        echo "0 passed, 1 failed"
        exit 1
    fi
}

# notes whether something was as wanted: what it is, and what differs, or nothing
count() {
    if [[ -z $2 ]]; then
        passed=$((passed + 1))
    else
        failed=$((failed + 1))
        echo "FAILED: $1: $2"
    fi
}

# notes whether a text is the one that is wanted
expect() {
    count "$1" "$([[ $2 == "$3" ]] || echo "it is '$2', and not '$3'")"
}

end() {
    echo "$passed passed, $failed failed"
    ((failed == 0))
}
