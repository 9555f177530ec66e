# Sourced, at the top of the repository: where the Rattle kit and its compiler and linker stand, what the compiler is told of a target, and what
# rt ci has passed.
if ! command -v rt > /dev/null; then
    echo 'the Rattle kit is missing: its command rt is not on the PATH' >&2
    exit 1
fi
machine=$(uname -m)
kit=$(dirname "$(rt doc < /dev/null)")
toolchain=$kit/toolchain

# The words of tools/targets.txt for a target, one to a line; none for a name that is not there.
words_of() {
    awk -v name="$1" '{ sub(/#.*/, "") } $1 == name { for (i = 2; i <= NF; i++) print $i }' tools/targets.txt
}

# A sum of some files' texts, whose names come on standard input with a zero byte after each.
sum_of() {
    LC_ALL=C sort -z | xargs -0 -r sha256sum | sha256sum | cut -c 1-64
}

# A sum of the kit and of all that a check reads.
sum_of_sources() {
    rt version < /dev/null | sha256sum | cut -c 1-16
    find crates.txt crates -name out -prune -o -type f \( -path '*/src/*' -o -path '*/specs/*' -o -path '*/proofs/*' -o -name crates.txt \) -print0 | sum_of
}

# A sum of the libraries in crates/*/out: the file format of each holds that of its files.
sum_of_libraries() {
    find crates -path '*/out/rlib/*.rlib/format' -print0 | sum_of
}

# Whether tools/proved noted this of the present sources.
is_noted() {
    grep -qxF "sources $(sum_of_sources | xargs)" target/proved 2> /dev/null && grep -qxF "$*" target/proved
}

# Of what rt says, what those who wait want to know, and why something is not proved.
news() {
    sed -n -e '/^rt: running/d' -e '/^rt:/p' -e '/error[:[]/p' -e '/^fn .*: \(not proved\|no proof\)/p' >&2
}

# Proves and makes the program of a crate, unless rt ci left it of the present sources, and prints its path.
program_of() {
    local program=crates/$1/out/$1 log
    if ! { [ -f "$program" ] && is_noted "program $(sha256sum "$program")"; }; then
        log=$(mktemp)
        # rt run also runs it, and says so once it is proved and made.
        (cd "crates/$1" && rt run < /dev/null 2>&1 > /dev/null) | tee "$log" | news || true
        if ! grep -q '^rt: running' "$log"; then
            rm "$log"
            echo "crate $1 is not proved, so there is no program" >&2
            return 1
        fi
        rm "$log"
    fi
    echo "$program"
}
