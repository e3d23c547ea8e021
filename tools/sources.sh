# Read by tools/program.sh and ./build, which say in `top` where the repository is and in `name` which program is meant.

# The crate of the program and the crates below it, by crates.txt.
crates_below() {
    awk -v first="$name" '
        /^[a-z]/ { split($0, side, ":"); split(side[1], head, " "); below[head[1]] = side[2] }
        END {
            count = 1; crate[1] = first; seen[first] = 1
            for (i = 1; i <= count; i++) {
                n = split(below[crate[i]], names, " ")
                for (j = 1; j <= n; j++) if (names[j] in below && !(names[j] in seen)) { seen[names[j]] = 1; crate[++count] = names[j] }
            }
            for (i = 1; i <= count; i++) print "crates/" crate[i]
        }' crates.txt | LC_ALL=C sort
}

# The sum of all that the program is made and proved from. ./build writes it beside what it makes.
sum_of_sources() {
    (
        cd "$top" || exit 9
        {
            cat crates.txt
            find $(crates_below) -type d -name out -prune -o -type f \( -name '*.rt' -o -name '*.antt' \) -print |
                LC_ALL=C sort | tr '\n' '\0' | xargs -0 sha256sum
        } | sha256sum | cut -d ' ' -f 1
    )
}
