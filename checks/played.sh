# Shared by .ci/run and checks/shown, which source it from the top: the paths of proved and built files, and functions that
# play checks. The file SAID gets the parts that are skipped because a package is missing, for the last line.
program=crates/road_proof/out/road_proof
library=crates/route_check_c/out/libgogbetiku.so.0
archive=crates/route_check_c/out/libroute_check_c.a
if [ -z "${SAID:-}" ]; then
    SAID=$(mktemp) || exit 2
    export SAID
    trap 'rm -f "$SAID"' EXIT
fi

# plays a command, and keeps its messages
play() {
    "$@" 2>&1 | tee -a "$SAID"
    return "${PIPESTATUS[0]}"
}

# whether this machine has a program; if not, prints the skipped part
has() {
    command -v "$1" > /dev/null && return
    echo "skipped: $2, since this machine has no $1" >> "$SAID"
    return 1
}

# the Python that has a module of Debian's, or else the first one
python_with() {
    if /usr/bin/python3 -c "import $1" 2> /dev/null; then
        echo /usr/bin/python3
    else
        echo python3
    fi
}

# tests that a file has the octets in SUMS, if the toolchain is the one that SUMS names
of_the_sums() {
    if [ "$(head -n 1 SUMS)" = "# $(rt version)" ]; then
        play sha256sum --quiet -c <(grep "  $1\$" SUMS)
    else
        echo "skipped: SUMS, since this machine has another toolchain" >> "$SAID"
    fi
}

# tests that the library's archive has the octets in SUMS, if SUMS has a line for it
of_the_archive() {
    if grep -q "  $archive\$" SUMS; then
        of_the_sums $archive
    else
        echo "skipped: SUMS of the library, which SUMS does not name yet" >> "$SAID"
    fi
}

# the skipped parts, in one line
left_out() {
    grep -h "skipped" "$SAID" | sort -u | paste -sd ';' -
}
