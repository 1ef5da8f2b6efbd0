#!/usr/bin/env bash
# Runs the program on schedules with the Nth allocation refused, for each N in turn until none is refused any more: the
# examples, the program's own, each of crates/transcripts/data, and the files that are named. Each run must end with status
# 7 and a front of the usual text, or as without the refusal. It needs a C compiler.
set -u
here=$(cd "$(dirname "$0")/.." && pwd)
program=$here/crates/autopush/out/autopush
[ -x "$program" ] || { echo "build the program first: ./replay examples/direct.schedule"; exit 1; }
work=$(mktemp -d); trap 'rm -rf "$work"' EXIT
cat >"$work/refuse.c" <<'C'
#define _GNU_SOURCE
#include <dlfcn.h>
#include <errno.h>
#include <stdlib.h>
static long wanted = -1, made;
static int refused(void) {
    if (wanted < 0) { const char *text = getenv("REFUSE"); wanted = text ? atol(text) : 0; }
    return ++made == wanted;
}
void *malloc(size_t size) {
    static void *(*real)(size_t);
    if (!real) real = (void *(*)(size_t))dlsym(RTLD_NEXT, "malloc");
    if (refused()) { errno = ENOMEM; return 0; }
    return real(size);
}
void *realloc(void *old, size_t size) {
    static void *(*real)(void *, size_t);
    if (!real) real = (void *(*)(void *, size_t))dlsym(RTLD_NEXT, "realloc");
    if (refused()) { errno = ENOMEM; return 0; }
    return real(old, size);
}
void *aligned_alloc(size_t align, size_t size) {
    static void *(*real)(size_t, size_t);
    if (!real) real = (void *(*)(size_t, size_t))dlsym(RTLD_NEXT, "aligned_alloc");
    if (refused()) { errno = ENOMEM; return 0; }
    return real(align, size);
}
int posix_memalign(void **out, size_t align, size_t size) {
    static int (*real)(void **, size_t, size_t);
    if (!real) real = (int (*)(void **, size_t, size_t))dlsym(RTLD_NEXT, "posix_memalign");
    if (refused()) return ENOMEM;
    return real(out, align, size);
}
C
cc -O1 -shared -fPIC -o "$work/refuse.so" "$work/refuse.c" -ldl || exit 1
# what each transcript sends, as a file
mkdir "$work/transcripts"
for file in "$here"/crates/transcripts/data/*.txt; do
  awk -v out="$work/transcripts/$(basename "$file" .txt)-" '
    /^== / { if (n) printf "%s", text > (out n); n++; text = opening }
    /^< / { text = text substr($0, 3) "\n"; if (!n) opening = text }
    /^<[.] / { text = text substr($0, 4) }
    END { if (n) printf "%s", text > (out n) }' "$file"
done
bad=0
for schedule in "$here"/examples/*.schedule "$here"/crates/autopush/stdin "$work"/transcripts/* "$@"; do
  "$program" replay <"$schedule" >"$work/usual"; usual=$?
  refusals=0 same=0 number=1
  while [ "$same" -lt 3 ] && [ "$number" -le 100000 ]; do
    LD_PRELOAD=$work/refuse.so REFUSE=$number "$program" replay <"$schedule" >"$work/text" 2>/dev/null; status=$?
    size=$(stat -c %s "$work/text")
    if [ "$status" -eq "$usual" ] && cmp -s "$work/text" "$work/usual"; then same=$((same + 1))
    elif [ "$status" -eq 7 ] && cmp -s -n "$size" "$work/text" "$work/usual"; then refusals=$((refusals + 1)) same=0
    else echo "$(basename "$schedule"): refusal $number ends with status $status and another text"; bad=1; same=0
    fi
    number=$((number + 1))
  done
  echo "$(basename "$schedule"): $refusals refusals, each answered 7 and a front of the text"
done
exit $bad
