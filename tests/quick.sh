#!/usr/bin/env bash
# The checks that a change is likely to break: tests/quick.sh, or `make quick`
#
# Compares the files with the commit that last passed `make test` (build/passed), or else with the last commit. Checks each crate
# that changed, lowest first, and runs the tests of a test crate. Then it builds the program, and runs the tests of the program that
# take seconds. Over warm `out/` folders that takes up to five minutes. It tries no wrong body, and leaves out unchanged crates
# above, unless the program uses them: `make test` does all of that.

set -euo pipefail
cd "$(dirname "$(realpath "$0")")/.."
rt=${RT:-rt}
passed=$(cat build/passed 2>/dev/null || true)
since=$(git rev-parse --verify --quiet "${passed:-HEAD}^{commit}" || echo HEAD)

# has_changed CRATE: whether a file of it differs from that commit, or is new
has_changed() {
    ! git diff --quiet "$since" -- "crates/$1" || [ -n "$(git ls-files --others --exclude-standard "crates/$1")" ]
}

echo "crates that differ from $(git log -1 --format='%h (%s)' "$since"):"
mapfile -t crates < <(sed -n 's/^\([a-z_]*\)\b[^#]*:.*/\1/p' crates.txt)
for crate in "${crates[@]}"; do
    has_changed "$crate" || continue
    step=check
    [[ $crate != *_tests ]] || step="test"
    echo "$crate: rt $step"
    (cd "crates/$crate" && "$rt" $step)
done

make --no-print-directory build/rds
cd tests
/usr/bin/python3 -m pytest -q -n auto --rds=../build/rds test_program.py test_listings.py test_work.py
/usr/bin/python3 -m pytest -q -n 0 --rds=../build/rds test_growth.py -k "growth and not forms or two_ways"
/usr/bin/python3 -m pytest -q --rds=../build/rds "test_differential.py::test_recordings_and_lines[1]" "test_differential.py::test_streams[1]"
