#!/usr/bin/env bash
# Copies a file of 20,000 bytes, or merges it with another one, with each allocation of the program, and each start of a
# thread, failing in turn, until a copy had none left to fail: to a new name, and over an old file.
#
# usage: bench/fail_each_copy.sh [--merge] [PROGRAM]        (what `rt run` built in crates/waitq if none is given)
#
# A copy may end with status 7, out of memory, and then what was under the last name is there; or with status 0 and its
# text, where what failed was not needed, and then the file of that name has just the bytes of the first one, or of the
# two, those of each in their order. Anything else fails, and so does a copy that takes more than 20 seconds, and a file
# that is left beside these. It needs a C compiler, for a library that is loaded before C's; status 77 says that there is
# none.
set -u

root=$(cd "$(dirname "$(readlink -f "${BASH_SOURCE[0]}")")/.." && pwd)
what=copy
[ "${1:-}" != --merge ] || { what=merge && shift; }
program=$(readlink -f "${1:-$root/crates/waitq/out/waitq}")
work=$(mktemp -d)
trap 'rm -rf "$work"' EXIT
if ! command -v cc >/dev/null; then
    echo "fail_each_copy.sh: there is no C compiler" >&2
    exit 77
fi

cat >"$work/failing.c" <<'END'
#define _GNU_SOURCE
#include <dlfcn.h>
#include <errno.h>
#include <fcntl.h>
#include <pthread.h>
#include <stdatomic.h>
#include <stdlib.h>
#include <unistd.h>

void *__libc_malloc(size_t size);
void *__libc_calloc(size_t count, size_t size);
void *__libc_realloc(void *block, size_t size);

/* Which call is to fail, counted from 1, and how many there were. 0: none. */
static unsigned long failing;
static atomic_ulong calls;

__attribute__((constructor)) static void begin(void) {
    const char *number = getenv("FAILING");
    failing = number ? strtoul(number, NULL, 10) : 0;
}

/* Whether this call fails. The file FAILED tells that one did. */
static int fails(void) {
    if (failing == 0 || atomic_fetch_add(&calls, 1) + 1 != failing) return 0;
    close(open(getenv("FAILED"), O_CREAT | O_WRONLY, 0600));
    errno = ENOMEM;
    return 1;
}

void *malloc(size_t size) { return fails() ? NULL : __libc_malloc(size); }

void *calloc(size_t count, size_t size) { return fails() ? NULL : __libc_calloc(count, size); }

void *realloc(void *block, size_t size) { return fails() ? NULL : __libc_realloc(block, size); }

int pthread_create(pthread_t *thread, const pthread_attr_t *how, void *(*run)(void *), void *with) {
    int (*create)(pthread_t *, const pthread_attr_t *, void *(*)(void *), void *);
    if (fails()) return EAGAIN;
    *(void **)&create = dlsym(RTLD_NEXT, "pthread_create");
    return create(thread, how, run, with);
}
END
cc -O1 -shared -fPIC -o "$work/failing.so" "$work/failing.c" -ldl || exit 1

mkdir "$work/files"
for _ in $(seq 250); do
    printf 'a line of bytes that is eighty long with its end, and of which there are 250 ..\n'
done >"$work/files/a"
head -c 20000 /dev/zero | tr '\0' '#' >"$work/files/c"
sources=("$work/files/a")
if [ "$what" = merge ]; then
    sources+=("$work/files/c")
    printf 'merged 40000 bytes\nmoved 120000\n' >"$work/expected"
else
    printf 'copied 20000 bytes\nmoved 60000\nwatch 0 20000\nwatch 1 250\nsignals 0\n' >"$work/expected"
fi
printf 'waitq: out of memory\n' >"$work/line"

printf 'before\n' >"$work/before"

fail() {
    echo "fail_each_copy.sh: call $number, $over: $1" >&2
    head -n 5 "$work/said" >&2
    exit 1
}

# Whether the file b is as it was.
is_as_before() {
    if [ "$over" = "a new name" ]; then
        [ ! -e "$work/files/b" ]
    else
        cmp -s "$work/before" "$work/files/b"
    fi
}

# Whether the file b has the bytes of the sources, those of each in their order.
is_whole() {
    tr -d '#' <"$work/files/b" | cmp -s - "$work/files/a" || return
    [ "$what" = copy ] || tr -dc '#' <"$work/files/b" | cmp -s - "$work/files/c"
}

# Copies with the call of this number failing, and looks at what the copy wrote, said and left.
copy() {
    rm -f "$work/files/b" "$work/failed"
    [ "$over" = "a new name" ] || cp "$work/before" "$work/files/b"
    timeout 20 env FAILING="$number" FAILED="$work/failed" LD_PRELOAD="$work/failing.so" \
        "$program" "$what" "${sources[@]}" "$work/files/b" >"$work/text" 2>"$work/said"
    status=$?
    [ "$status" != 124 ] || fail "the copy did not end in 20 seconds"
    [ -z "$(find "$work/files" -name '*.part*')" ] || fail "a file is left beside b"
    case $status in
    7)
        wanting=$((wanting + 1))
        is_as_before || fail "status 7, and b is not as it was"
        [ ! -s "$work/text" ] || fail "status 7, and there is a text"
        cmp -s "$work/said" "$work/line" || fail "status 7, and another line"
        ;;
    0)
        cmp -s "$work/text" "$work/expected" || fail "status 0, and the text isn't that of the copy"
        is_whole || fail "status 0, and b has other bytes"
        ;;
    *) fail "status $status" ;;
    esac
}

for over in "a new name" "an old file"; do
    number=0
    wanting=0
    while :; do
        number=$((number + 1))
        copy
        [ -e "$work/failed" ] || break
    done
    echo "to $over: $((number - 1)) calls failed in turn, $wanting copies were out of memory, the others whole"
    [ "$wanting" -gt 3 ] || exit 1
done
