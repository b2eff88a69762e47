#!/usr/bin/env bash
# Refuses each request for memory of some runs in turn, and looks at what comes of it: the results, or status 4 and nothing
# printed. Then the same of runs with a gate that counts the items: an update in place is refused nothing, whatever the size of
# its array, while an update that copies is. The arguments are the program, as it was built, and the program of test_calls.
program=${1:-crates/sisal_main/out/sisal_main} counting=${2:-crates/test_calls/out/test_calls}
room=$(mktemp -d)
trap 'rm -rf "$room"' EXIT

# What stands in for the C library's requests: the one of the number REFUSED is refused, and their count goes to the file COUNT.
cat >"$room/refusing.c" <<'C'
#define _GNU_SOURCE
#include <dlfcn.h>
#include <errno.h>
#include <stdio.h>
#include <stdlib.h>

static unsigned long made, refused;

static int refuses(void) {
    made++;
    if (made != refused) return 0;
    errno = ENOMEM;
    return 1;
}

extern void *__libc_malloc(size_t);
extern void *__libc_calloc(size_t, size_t);
extern void *__libc_realloc(void *, size_t);
extern void *__libc_memalign(size_t, size_t);

void *malloc(size_t n) { return refuses() ? NULL : __libc_malloc(n); }
void *calloc(size_t n, size_t m) { return refuses() ? NULL : __libc_calloc(n, m); }
void *realloc(void *p, size_t n) { return refuses() ? NULL : __libc_realloc(p, n); }
void *aligned_alloc(size_t a, size_t n) { return refuses() ? NULL : __libc_memalign(a, n); }
int posix_memalign(void **p, size_t a, size_t n) {
    if (refuses()) return ENOMEM;
    *p = __libc_memalign(a, n);
    return *p ? 0 : ENOMEM;
}

__attribute__((constructor)) static void begin(void) {
    const char *number = getenv("REFUSED");
    refused = number ? strtoul(number, NULL, 10) : 0;
    made = 0;
}

__attribute__((destructor)) static void end(void) {
    const char *name = getenv("COUNT");
    unsigned long total = made;
    FILE *file = name ? fopen(name, "w") : NULL;
    if (file) {
        fprintf(file, "%lu\n", total);
        fclose(file);
    }
}
C
cc -O2 -shared -fPIC -o "$room/refusing.so" "$room/refusing.c" || exit 1
wrong=0

under() { # the number of the refused request, a program and its words: runs it on the file text
    local number=$1
    shift
    LD_PRELOAD=$room/refusing.so REFUSED=$number COUNT=$room/count "$@" <"$room/text" >"$room/out" 2>"$room/err"
}

refuse_each() { # a name and the words of a run of the file text
    local name=$1 number requests wanted status refused=0
    shift
    under 0 "$program" "$@" || { echo "$name: status $?"; wrong=1; return; }
    wanted=$(cat "$room/out") requests=$(cat "$room/count")
    for ((number = 1; number <= requests; number++)); do
        under "$number" "$program" "$@"
        status=$?
        if [ $status -eq 4 ] && [ ! -s "$room/out" ]; then
            refused=$((refused + 1))
        elif [ $status -ne 0 ] || [ "$(cat "$room/out")" != "$wanted" ]; then
            echo "$name: request $number: status $status, $(head -c 100 "$room/out")"
            wrong=1
        fi
    done
    echo "$name: $requests requests, $refused of them refused to the end"
}

refused_items() { # the words of a run of the file program: the calls of the gate where a request was refused, each once
    local number requests row
    row=$(tr '\n' @ <"$room/program")
    printf 'row\t!gate^%s\t%s\n' "$1" "$row" >"$room/text"
    under 0 "$counting" || exit 1
    requests=$(cat "$room/count")
    for ((number = 1; number <= requests; number++)); do
        under "$number" "$counting" && sed -n 's/^row: 4 //p' "$room/out"
    done | sort -u
}

wanted_items() { # a name, a pair of calls, whether a request is to be refused between them, the words
    local found=no
    refused_items "$4" | grep -qx "$2" && found=yes
    if [ $found = "$3" ]; then echo "$1: $found"; else echo "$1: $found, and not $3"; wrong=1; fi
}

main() { # the parameters and results of main, its body, and what stands before it
    printf 'define main\n%sfunction main(%s)\n%s\nend function\n' "$3" "$1" "$2"
}

main 'returns integer' '1 + 2 * 3' >"$room/text"
refuse_each 'an expression' run
main 'n: integer returns array[integer]' 'for initial i := 1; a := array_fill(1, n, 0) while i <= n repeat i := old i + 1; a := old a[old i: old i * old i] returns value of a end for' >"$room/text"
refuse_each 'updates in a loop' run --stats 4
main 'returns integer, array[integer]' 'let a := array_fill(1, 3, 5); b := a[1: 9] in a[1], b end let' >"$room/text"
refuse_each 'an update in place' run --stats
main 'returns V, V, V, integer' 'let a := array_fill(1, 2, 4); p, q := two(a); r := set(a) in p, q, r, a[2] end let' 'type V = array[integer]
function two(a: V returns V, V) a, a end function
function set(a: V returns V) a[1: 7] end function
' >"$room/text"
refuse_each 'calls that copy' run --stats
main 'a, b: M; note: array[character] returns M, integer' 'for r in a cross c in b returns array of for x in r dot y in c returns value of sum x * y end for end for, array_size(note)' 'type M = array[array[integer]]
' >"$room/text"
refuse_each 'a product of matrices' run --workers 1 --stats '[1: [1: 1 2 3] [1: 4 5 6] [1: 7 8 9]]' '[1: [1: 1 0 0] [1: 0 1 0] [1: 0 0 2]]' '"ab"'

# The update is the third and last item, the copying one the second.
for size in 3 100000; do
    main 'n: integer returns integer, array[integer]' 'let a := array_fill(1, n, 5); b := a[1: 9] in a[1], b end let' >"$room/program"
    wanted_items "an update in place of $size is refused memory" '3 2' no "run^$size"
    main 'n: integer returns array[integer], array[integer]' 'let a := array_fill(1, n, 5); b := a[1: 9]; c := a[2: b[1]] in b, c end let' >"$room/program"
    wanted_items "an update of $size that copies is refused memory" '2 1' yes "run^$size"
done
exit $wrong
