# Sourced by the scripts that run the proved programs: builds those that are named in `programs` into target/bin. `rt run` proves what has changed since, builds the program and runs it, here on nothing.
mkdir -p target/bin
for program in $programs; do
    said=$(mktemp)
    rm -f "crates/$program/out/$program"
    (cd "crates/$program" && rt run </dev/null) >"$said" 2>&1 || true
    [ -x "crates/$program/out/$program" ] || {
        tail -20 "$said"
        rm -f "$said"
        exit 1
    }
    rm -f "$said"
    cmp -s "crates/$program/out/$program" "target/bin/$program" || cp "crates/$program/out/$program" "target/bin/$program"
done
