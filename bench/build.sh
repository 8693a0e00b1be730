# Builds what a benchmark or a check runs; read by a script that has set $top, the repository, and $work, a folder of its own.
# Where PROGRAM names a program that was built before, club_program and evening_program build nothing. Whatever is built is
# proved first.

build() { # FOLDER, the words of a first run
    echo "building" >&2
    (cd "$1" && shift && rt run -- "$@" < /dev/null) > "$work/build.log" 2>&1 || {
        cat "$work/build.log" >&2
        exit 1
    }
}

club_program() { # the program itself, in $program
    program=${PROGRAM:-$top/crates/bridge_club/out/bridge_club}
    [ -n "${PROGRAM:-}" ] || build "$top/crates/bridge_club" auction 1
}

# A crate of the name $1 that uses the libraries $2, in a repository of its own with the crates $3, so that the gate does not
# prove it. Its sources are the caller's to put into $crates/$1.
own_repository() { # NAME, LIBRARIES, CRATES
    crates=$work/repo/crates
    mkdir -p "$crates/$1/src"
    for crate in $3; do
        cp -r "$top/crates/$crate" "$crates"
        grep "^$crate:" "$top/crates.txt" >> "$work/repo/crates.txt"
    done
    echo "$1: $2" >> "$work/repo/crates.txt"
    echo 'Handles allowed: none.' > "$work/repo/HANDLES"
}

evening_program() { # that of whole evenings, in $program
    program=${PROGRAM:-$work/repo/crates/evening/out/evening}
    [ -z "${PROGRAM:-}" ] || return 0
    own_repository evening "anyhow arrayvec bridge_auction bridge_cards bridge_config bridge_movement bridge_pbn bridge_play \
bridge_score bridge_session" "line_text bridge_cards bridge_movement bridge_auction bridge_play bridge_score bridge_endings \
bridge_config sector_disk session_store session_rules bridge_table session_bytes bridge_ranking bridge_session bridge_pbn"
    cp "$top/bench/evening/program.txt" "$crates/evening/src/main.rt"
    build "$crates/evening" hold 1
}
