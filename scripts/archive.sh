# Sourced by the scripts that need the archive of the proved operations: builds target/staticlib/libkamordast.a from the crate of the exports for C, and sets `archive`. `rt lib` proves what has
# changed since and builds it. What one script has built it need not ask for again.
archive=target/staticlib/libkamordast.a
if [ "${archive_built-}" != yes ]; then
    said=$(mktemp)
    (cd crates/kamordast_c && rt lib) >"$said" 2>&1 || {
        tail -20 "$said"
        rm -f "$said"
        exit 1
    }
    rm -f "$said"
    mkdir -p target/staticlib
    cmp -s crates/kamordast_c/out/libkamordast_c.a "$archive" || cp crates/kamordast_c/out/libkamordast_c.a "$archive"
    export archive_built=yes
fi
