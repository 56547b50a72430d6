# When what was built is proved and built again, and how far a proof of crates is: for the programs of this folder, which source it.

# The crates that one stands on, and itself, by the list of crates: how many they are.
crates_below() {
    awk -v top="$1" '
        !/^#/ && NF { sub(/ staticlib/, ""); name = $1; sub(/:$/, "", name); $1 = ""; uses[name] = $0 }
        function add(name, parts, n, i) {
            if (!(name in uses) || name in seen) return
            seen[name] = 1; found++
            n = split(uses[name], parts, " ")
            for (i = 1; i <= n; i++) add(parts[i])
        }
        END { add(top); print found }' "$2"
}

# Whether a built file isn't there, or something is newer: a source, a folder of sources (one was added or removed), the list of crates.
# A crate's own folder is left out, since rt makes out/ in it; so are the edits that the prover must refuse.
is_old() {
    local top=$1 built=$2
    [ ! -f "$built" ] || [ -n "$(
        find "$top/crates.txt" -newer "$built"
        find "$top/crates" -mindepth 2 \( -name out -o -name must-fail \) -prune -o \
            -newer "$built" \( -name '*.rt' -o -name '*.antt' -o -type d \) -print
    )" ]
}

# Proves a crate and builds a file of it by the command that follows, in the crate's folder. It shows on a terminal how many of the crates
# are done, which one is in work, how many functions of it are done, and how long it has taken. Elsewhere it shows that once, at the end.
# Where the command fails, what it said last stands on standard error. `rt run` says this on standard error, `rt lib` on standard output.
proved() {
    local top=$1 name=$2 built=$3 place all line shown='' done=0 crate='' functions='' status=0
    shift 3
    place=$(mktemp -d)
    # It goes too where this is interrupted.
    trap "rm -rf '$place'" EXIT
    touch "$place/begun"
    all=$(crates_below "$name" "$top/crates.txt")
    SECONDS=0
    while IFS= read -r line; do
        case $line in
            'rt: chose --jobs '*' for '*) crate=", now ${line##* for }" functions='' ;;
            'so far: '*' functions checked'*) functions=", ${line#so far: }" functions=${functions%%;*} ;;
            logic=proved*) done=$((done + 1)) crate='' functions='' ;;
        esac
        shown="$done of $all crates proved$crate$functions: $((SECONDS / 60)) min $((SECONDS % 60)) s"
        [ ! -t 2 ] || printf '\r\033[K%s' "$shown" >&2
    done < <( (cd "$top/crates/$name" && "$@" 2>&1 < /dev/null || echo "failed $?") | tee "$place/said")
    if [ -t 2 ]; then echo >&2; else echo "$shown" >&2; fi
    if [[ $(tail -n 1 "$place/said") =~ ^failed\ ([0-9]+)$ ]]; then
        status=${BASH_REMATCH[1]}
        tail -n 20 "$place/said" >&2
    else
        # Sources that were changed during the build are newer than what was built.
        touch -r "$place/begun" "$built"
    fi
    rm -rf "$place"
    trap - EXIT
    return "$status"
}
