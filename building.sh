# shellcheck shell=sh
# How the scripts of this repository build. They source it, after they have set
#   root      the repository's folder, an absolute path
#   script    what their messages begin with; by default the script's own name
# While a build runs, descriptor 8 carries what rt prints and descriptor 9 holds the lock.

: "${root:?is to be set by the script that sources building.sh}"
# What is built is copied here: what rt makes stands in out/ of each crate, which 'rt ci' sets aside.
program=$root/target/bin/sheet_program
linked=$root/crates/sheet_program/out/sheet_program
build_log=$root/target/build.log
# The lock, the pipe that rt prints into, and when the build began.
build_room=$root/.build

say() { printf '%s: %s\n' "${script:-${0##*/}}" "$*" >&2; }

# ---- What a build stands on

# Prints the crates that those named need, and these, in the order in which rt proves them: by levels, leaves first. Where 'changed'
# is set, only those that it names and what stands on them. The kit's libraries have no line in crates.txt, and are not among them.
crates_for() { # CRATE...
    WANTED="$*" CHANGED="${changed-*}" awk '
        function visit(n,    a, k, m) {
            if (n in level) return
            level[n] = 0
            m = split(below[n], a, " ")
            for (k = 1; k <= m; k++) if (a[k] in below) {
                visit(a[k])
                if (level[a[k]] >= level[n]) level[n] = level[a[k]] + 1
                if (a[k] in again) again[n] = 1
            }
            if (level[n] > top) top = level[n]
            list[++count] = n
        }
        { sub(/#.*/, ""); i = index($0, ":") }
        i { split(substr($0, 1, i - 1), a); below[a[1]] = substr($0, i + 1) }
        END {
            m = split(ENVIRON["CHANGED"], a, " ")
            for (k = 1; k <= m; k++) again[a[k]] = 1
            m = split(ENVIRON["WANTED"], a, " ")
            for (k = 1; k <= m; k++) visit(a[k])
            for (l = 0; l <= top; l++) for (k = 1; k <= count; k++)
                if (level[list[k]] == l && ("*" in again || list[k] in again)) print list[k]
        }' "$root/crates.txt"
}

# Whether a file is there, and none of these crates and of further files is newer. Folders count, since only they show that a file was removed;
# wrong programs do not, nor what rt makes in out/, nor a crate's own folder, which is newer each time that out/ is made. A source that is missing
# makes find complain, which counts as newer.
is_current() { # FILE 'CRATE...' [SOURCE...]
    built=$1 crates=$2
    shift 2
    for crate in $crates; do
        for entry in "$root/crates/$crate"/*; do
            case ${entry##*/} in out | must-fail) ;; *) set -- "$@" "$entry" ;; esac
        done
    done
    [ -f "$built" ] && [ -z "$(find "$root/crates.txt" "$root/KIT" "$@" -newer "$built" -print 2>&1 | head -n 1)" ]
}

# The same of what is made of crates and of all that they stand on.
is_current_with() { # FILE 'CRATE...' [SOURCE...]
    made=$1
    # shellcheck disable=SC2086
    wanted=$(crates_for $2)
    shift 2
    is_current "$made" "$wanted" "$@"
}

# What rt leaves of a crate that it has built as a library.
stamp_of() { echo "$root/crates/$1/out/rlib/stamp"; }

# Prints those of the crates needed that are to be proved: rt has left no stamp, a source is newer than it, or they stand on such a
# crate. rt goes by contents, and may find that fewer have changed.
unproved() { # CRATE...
    changed=$(for one in $(crates_for "$@"); do
        is_current "$(stamp_of "$one")" "$one" || echo "$one"
    done)
    crates_for "$@"
    unset changed
}

# Says why something is made.
state_of() { # WHAT FILE
    if [ -e "$2" ]; then echo "sources are newer than $1"; else echo "$1 is not built yet"; fi
}

# Says what is going to happen and, of a build from nothing, how long it takes: five crates a minute on two processors.
announce() { # WHAT FILE COUNT
    minutes=$((($3 + 4) / 5))
    case $3 in 1) crates='1 crate is' ;; *) crates="$3 crates are" ;; esac
    case $minutes in 1) minutes='about a minute' ;; *) minutes="some $minutes minutes" ;; esac
    if [ -e "$2" ]; then
        say "$(state_of "$1" "$2"): up to $crates proved again"
    else
        say "$(state_of "$1" "$2"): $crates to be proved first, which takes $minutes on two processors"
    fi
}

# Notes that a file, and what rt has proved for it, is as old as the start of the build: what was changed meanwhile is newer, and what rt
# found unchanged is not.
mark_current() { # FILE CRATE...
    touch -r "$build_room/began" "$1"
    shift
    for crate in $(crates_for "$@"); do touch -c -r "$build_room/began" "$(stamp_of "$crate")"; done
}

# ---- The kit

# Whether the kit is here that the repository is proved with: another one may refuse what this one proves, or prove what it refuses.
has_kit() { # [WHAT FILE, which it is needed for]
    why='' needed=$(cat "$root/KIT")
    [ $# -eq 0 ] || why="$(state_of "$@"), and "
    if ! command -v rt >/dev/null; then
        say "${why}rt is not here: the Rattle kit '$needed' is needed, with its command rt on PATH. Without it nothing can be proved or built"
        return 1
    fi
    if ! found=$(rt version 2>&1); then
        say "${why}rt does not run: $found"
        return 1
    fi
    if [ "$found" != "$needed" ]; then
        say "${why}rt is of another Rattle kit: '$found' is here, '$needed' is needed (file KIT)"
        return 1
    fi
}

# ---- One build at a time

locked='' reader=''

# Waits until no other build runs in this repository. From here to unlock_builds a signal ends all that was started, then the script.
lock_builds() {
    if ! { mkdir -p "$build_room" "$root/target" && touch "$build_room/lock"; } 2>/dev/null; then
        say "nothing can be built, since $root cannot be written"
        return 1
    fi
    trap 'interrupted 129' HUP
    trap 'interrupted 130' INT
    trap 'interrupted 143' TERM
    if ! command -v flock >/dev/null; then
        lock_by_folder
    else
        exec 9>>"$build_room/lock"
        flock -n 9 || wait_for_lock || return 1
    fi
    locked=yes
}

wait_for_lock() {
    say "another build is running; waiting for it"
    # In the background: a trap does not run before a command in the foreground has ended.
    flock 9 &
    wait $!
}

# The lock where there is no flock: a folder with its owner's process number, which is taken over where that process is gone.
lock_by_folder() {
    said='' before=''
    until mkdir "$build_room/owner" 2>/dev/null; do
        owner=$(cat "$build_room/owner/pid" 2>/dev/null) || owner=none
        # Gone only if seen so twice, a second apart: an owner makes the folder first, and then writes its number.
        if [ "$owner" = "$before" ] && ! kill -0 "$owner" 2>/dev/null; then
            # One at a time, lest the folder of who was first be removed.
            if mkdir "$build_room/taking" 2>/dev/null; then
                [ "$(cat "$build_room/owner/pid" 2>/dev/null || echo none)" != "$owner" ] || rm -rf "$build_room/owner"
                rmdir "$build_room/taking"
            fi
            before=''
            continue
        fi
        [ -n "$said" ] || say "another build is running; waiting for it"
        said=yes before=$owner
        sleep 1 &
        wait $!
    done
    echo $$ >"$build_room/owner/pid"
}

# Ends a build: removes what it made on its way, and frees the lock.
unlock_builds() {
    [ -n "$locked" ] || return 0
    discard
    rm -rf "$build_room/output" "$build_room/listing" "$build_room/owner"
    exec 9>&-
    locked=''
    trap - HUP INT TERM
}

# Ends what was started last with all that it started, then the build and the script.
interrupted() { # STATUS
    trap '' HUP INT TERM
    set +eu
    { kill -s TERM -- "-$!" || kill -s TERM "$!"; wait $!; kill "$reader"; } 2>/dev/null
    # A check has much memory to give back, and the lock is its too until it has.
    tries=0
    while kill -s 0 -- "-$!" 2>/dev/null && [ "$tries" -lt 20 ]; do sleep 0.1; tries=$((tries + 1)); done
    unlock_builds
    if [ -t 2 ]; then echo >&2; fi
    say "interrupted"
    exit "$1"
}

# Removes what a build makes on its way; a script that makes something has its own.
discard() { :; }

# ---- rt, and what it prints

# Hands what rt prints, from here to close_output, to a command.
open_output() { # COMMAND...
    rm -f "$build_room/output"
    mkfifo "$build_room/output"
    "$@" <"$build_room/output" 9>&- &
    reader=$!
    exec 8>"$build_room/output"
}

close_output() {
    exec 8>&-
    wait "$reader"
    reader=''
    rm -f "$build_room/output"
}

# Runs rt in a folder and returns its status. It has the lock too, so that none builds beside it where this script alone is killed. It has a
# session of its own, by which it is ended: the checks that it starts do not heed Ctrl-C. What it reads and where its output goes can be given.
run_rt() { # FOLDER WORD...
    session=setsid
    command -v setsid >/dev/null || session=''
    within=$1
    shift
    ran="rt $*"
    [ "$within" = "$root" ] || echo "== $ran in ${within#"$root/"}" >&8
    if [ -n "${listing:-}" ]; then
        (cd "$within" && exec $session rt "$@") <"$given" >"$listing" 2>&8 8>&- &
    else
        (cd "$within" && exec $session rt "$@") </dev/null >&8 2>&1 8>&- &
    fi
    wait $!
}

# Proves a crate and what it stands on, several at a time.
prove() { # CRATE
    # shellcheck disable=SC2086
    run_rt "$root/crates/$1" all check ${RT_JOBS:+--jobs "$RT_JOBS"}
}

# Reads what rt prints, keeps it in the log, and says which of the crates given is being proved: the first that is not proved yet. rt prints a
# block for each crate when its check has ended, and an empty one where there was nothing to check.
show_progress() { # CRATE...
    total=$# count=0 left=" $* " ended=''
    exec >"$build_log"
    show_step
    while IFS= read -r line; do
        printf '%s\n' "$line"
        case $line in
        '== '*)
            pass_step
            ended=${line#== }
            ;;
        'logic=proved'*) pass_step ;;
        'logic='* | *': error'* | 'rt: '*' stopped'*) ended='' ;;
        esac
    done
    if [ -t 2 ]; then printf '\r%70s\r' '' >&2; fi
}

# Goes on to the next step, where the crate that has ended is one of those that are shown.
pass_step() {
    case $left in *" ${ended:-none} "*) ;; *) return 0 ;; esac
    left="${left%%" $ended "*} ${left#*" $ended "}" count=$((count + 1)) ended=''
    show_step
}

# On a terminal one line that is written over, elsewhere a line for each step.
show_step() {
    [ "$count" -lt "$total" ] || return 0
    step=${left#"${left%%[! ]*}"}
    step="proving $((count + 1)) of $total: ${step%% *}"
    if [ -t 2 ]; then printf '\r%-70s' "${script:-${0##*/}}: $step" >&2; else say "$step"; fi
}

# Says from the log which crate failed in the last run of rt, and the first error that was printed of it.
explain_failure() {
    said=$(awk -v root="$root/" -v ran="$ran" '
        /^== rt / { crate = ""; failed = ""; first = ""; split("", error); next }
        /^== summary$/ { next }
        /^== / { crate = $2; next }
        failed == "" && /^[A-Za-z0-9_]+: failed \(/ { failed = $1; sub(/:$/, "", failed) }
        /^rt: (chose|note:|waiting for|rt |[A-Za-z0-9_]+: (begins with|another copy))/ { next }
        /: error|^note: [^ ]*:[0-9]+:[0-9]+: |^fn [^ ]+: no|^rt: / {
            sub(/^(note|rt): /, "")
            if ($0 ~ /^(\.\/)?(src|specs|proofs)\//) { sub(/^\.\//, ""); $0 = (crate == "" ? "" : "crates/" crate "/") $0 }
            if (first == "") first = $0
            if (!(crate in error)) error[crate] = $0
        }
        END {
            if (failed == "") said = ran " failed" (first == "" ? "" : ": " first)
            else said = failed " is not proved" (failed in error ? ": " error[failed] : "")
            while ((i = index(said, root)) > 0) said = substr(said, 1, i - 1) substr(said, i + length(root))
            print substr(said, 1, 400)
        }' "$build_log")
    say "$said"
    say "all that rt printed is in $build_log"
}

# Copies the crates to a folder outside the repository, without what rt keeps of them, which is large.
copy_crates() { # FOLDER
    tar -c -C "$root" --exclude='crates/*/out' crates crates.txt | tar -x -C "$1"
}

# Runs the gate of rt over every crate, while nothing is built; what rt prints is kept in a file. The program that it has proved, built and run
# is the one that users run.
prove_all() { # FILE
    lock_builds || return 1
    : >"$build_room/began"
    open_output tee "$1"
    ended=0
    run_rt "$root" ci || ended=$?
    close_output
    [ "$ended" -ne 0 ] || [ ! -x "$linked" ] || keep_program
    unlock_builds
    return "$ended"
}

# ---- The program

# It is copied to its place only when it has run as it should.
program_is_current() { [ -x "$program" ] && is_current_with "$program" sheet_program; }

# Proves and builds the program where it is not current.
make_program() {
    if program_is_current; then return 0; fi
    has_kit "the program" "$program" && lock_builds || return 1
    failed=0
    # It may have been built while this script waited.
    program_is_current || build_program || failed=1
    unlock_builds
    return "$failed"
}

build_program() {
    : >"$build_room/began"
    # shellcheck disable=SC2046
    set -- $(unproved sheet_program)
    announce "the program" "$program" $#
    open_output show_progress "$@"
    ended=0
    prove_and_run || ended=$?
    close_output
    if [ "$ended" -ne 0 ]; then
        if [ -n "$run_failed" ]; then say "$run_failed"; else explain_failure; fi
        return 1
    fi
    keep_program
    say "the program is proved and built"
}

# Copies what rt has linked to its place, in one step.
keep_program() {
    mkdir -p "$root/target/bin"
    cp "$linked" "$program.new"
    mark_current "$program.new" sheet_program
    mv -f "$program.new" "$program"
}

# rt links a program when it runs it, here on the sheet beside its source.
prove_and_run() {
    beside=$root/crates/sheet_program run_failed='' status=0
    rm -f "$linked" "$linked.stamp"
    prove sheet_program || return
    given=$beside/stdin listing=$build_room/listing
    run_rt "$beside" run || status=$?
    listing=''
    [ -x "$linked" ] || return 1
    if [ "$status" -ne 0 ]; then
        run_failed="sheet_program is proved, but its run failed: it ended with status $status"
    elif ! cmp -s "$build_room/listing" "$beside/stdout"; then
        run_failed="sheet_program is proved, but its run failed: it lists $beside/stdin otherwise than $beside/stdout"
    fi
    [ -z "$run_failed" ]
}

# Whether a folder has the sources of wgpu-core that reference/ is built from.
has_sources() {
    for source in command/transfer.rs init_tracker/mod.rs init_tracker/texture.rs init_tracker/buffer.rs device/queue.rs; do
        [ -f "$1/$source" ] || return 1
    done
}
