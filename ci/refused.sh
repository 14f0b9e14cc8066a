#!/bin/sh
# ci/refused.sh COPY: uses of the receiver and of the cursor that must not compile. Each ci/refused/*.txt is a client; its first line,
# '// expect: TEXT', is what the first error has to say. Each becomes a crate of its own in COPY, a copy of the repository that may be
# written to. It is silent if each client is refused as it must be.
# A client that the compiler lets pass would go on to the prover: the time limit ends it, and it counts as not refused.
root=$(cd "$(dirname "$0")/.." && pwd) || exit 2
copy=$1
[ -f "$copy/crates.txt" ] || { echo "usage: ci/refused.sh COPY" >&2; exit 2; }
log=$(mktemp) || exit 2
trap 'rm -f "$log"' EXIT
libraries="receiver sender $(sed -n 's/^receiver: //p' "$copy/crates.txt")"
for library in receiver sender; do
    (cd "$copy/crates/$library" && rt lib) >"$log" 2>&1 || { echo "the library $library is not proved"; tail -n 20 "$log"; exit 1; }
done
failed=0
for client in "$root"/ci/refused/*.txt; do
    name=refused_$(basename "$client" .txt)
    mkdir -p "$copy/crates/$name/src" && cp "$client" "$copy/crates/$name/src/lib.rt" || exit 2
    echo "$name: $libraries" >>"$copy/crates.txt"
    expect=$(sed -n '1s|^// expect: ||p' "$client")
    (cd "$copy/crates/$name" && timeout 300 rt check) >"$log" 2>&1
    status=$?
    if [ "$status" -ne 1 ] || [ -z "$expect" ] || ! grep -m 1 ': error' "$log" | grep -qF -- "$expect"; then
        echo "not refused as it must be (status $status, wanted: $expect): $name"
        tail -n 20 "$log"
        failed=1
    fi
    rm -rf "${copy:?}/crates/$name"
    sed -i '$d' "$copy/crates.txt"
done
exit "$failed"
