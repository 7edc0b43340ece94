# What the scripts share. Sourced from fuzz/, with the repository one folder up.
targets="narrow inside fill open fold build put remove undo costliest write_costliest history"
built=target
if [ -n "${MASCON_LIB_DIR:-}" ]; then # given from the caller's folder
    case $MASCON_LIB_DIR in /*) ;; *) MASCON_LIB_DIR=$OLDPWD/$MASCON_LIB_DIR ;; esac
    export MASCON_LIB_DIR
fi
shipped=${MASCON_LIB_DIR:-../target/staticlib}/libmascon.a
covered=$built/libmascon-covered.a
# The rule's float steps are single ones: no compiler may join a product and a sum into one rounding.
flags="-O1 -g -ffp-contract=off -Wall -Wextra -Wno-unused-function"

fuzz_error() {
    echo "fuzz: $*" >&2
    return 1
}

# Clang, and with 'need_clang libFuzzer' its fuzzer too
need_clang() {
    local packages="the Debian packages clang and libclang-rt-14-dev have clang and libFuzzer"
    command -v clang >/dev/null || fuzz_error "clang is not there; $packages" || return 1
    [ "${1:-}" = libFuzzer ] || return 0
    mkdir -p "$built"
    echo 'int LLVMFuzzerTestOneInput(const char *bytes, unsigned long length) { return bytes && length > 9; }' |
        clang -fsanitize=fuzzer -x c - -o "$built/probe" 2>"$built/probe.log" ||
        fuzz_error "clang has no libFuzzer ($(tail -1 "$built/probe.log")); $packages"
}

# The library, made where it is missing; each call that it exports has a target.
need_library() {
    local call calls
    if [ ! -f "$shipped" ]; then
        [ -z "${MASCON_LIB_DIR:-}" ] || fuzz_error "MASCON_LIB_DIR: no $shipped" || return 1
        ../tools/staticlib || return 1
    fi
    calls=$(nm -g --defined-only "$shipped" | sed -n 's/.* T mascon_//p') && [ -n "$calls" ] ||
        fuzz_error "no exported call in $shipped" || return 1
    for call in $calls; do
        case " $targets " in *" $call "*) ;; *) fuzz_error "mascon_$call has no target" || return 1 ;; esac
    done
}

# build_targets FOLDER ARCHIVE [WORDS...]: each target, linked with that archive; WORDS compile the checks, with counters unless given
build_targets() {
    local folder=$1 archive=$2 target
    shift 2
    mkdir -p "$folder"
    # shellcheck disable=SC2086
    clang $flags "${@:--fsanitize=fuzzer-no-link}" -c src/calls.c -o "$folder/calls.o"
    for target in $targets; do
        # shellcheck disable=SC2086
        clang $flags -fsanitize=fuzzer "-DTARGET=$target" src/target.c "$folder/calls.o" "$archive" -lm -o "$folder/$target"
    done
}

# fuzz_one BINARIES TARGET SECONDS SEED FOUND LOG: from FOUND and the stored corpus; new inputs go to FOUND
fuzz_one() {
    local binaries=$1 target=$2 seconds=$3 seed=$4 found=$5 log=$6
    mkdir -p "$found" "$built/failures"
    "$binaries/$target" "-seed=$seed" "-max_total_time=$seconds" -use_value_profile=1 -max_len=1600 -timeout=20 -rss_limit_mb=2048 \
        -print_final_stats=1 "-artifact_prefix=$built/failures/$target-" "$found" "corpus/$target" >"$log" 2>&1
}

grouped() { printf "%d" "$1" | sed -E ':a; s/^([0-9]+)([0-9]{3})/\1,\2/; ta'; }

executed() { sed -n 's/^stat::number_of_executed_units: *//p' "$1" | tail -1; }

inputs() { find "$@" -type f 2>/dev/null | wc -l; }

# why_failed STATUS LOG SECONDS CORPUS: what is wrong with a run of a target, nothing where it ended well after its time
why_failed() {
    local status=$1 log=$2 seconds=$3 corpus=$4 lasted
    lasted=$(sed -n 's/^Done [0-9]* runs in \([0-9]*\) second.*/\1/p' "$log" | tail -1)
    if [ "$status" -ne 0 ]; then
        grep -m1 '^FAILED' "$log" || grep -m1 'ERROR' "$log" || tail -1 "$log" | grep . || echo "exit status $status"
        sed -n 's/.*Test unit written to /input: /p' "$log"
    elif [ "$(inputs "$corpus")" -eq 0 ]; then
        echo "no inputs in $corpus"
    elif [ "$(executed "$log" | grep -c '^[1-9]')" -eq 0 ]; then
        echo "no cases were run; see $log"
    elif [ "${lasted:-0}" -lt "$seconds" ]; then
        echo "ended after ${lasted:-0} of $seconds seconds; see $log"
    fi
}

# Runs every target for its share of the time, two at once (FUZZ_JOBS): run_all BINARIES SECONDS SEED FOUND LOGS
run_all() {
    local binaries=$1 seconds=$2 seed=$3 found=$4 logs=$5 jobs=${FUZZ_JOBS:-2} target running=0
    for target in $targets; do
        if [ "$running" -ge "$jobs" ]; then
            wait -n || true
            running=$((running - 1))
        fi
        rm -f "$logs/$target.status" "$logs/$target.log"
        (
            status=0
            fuzz_one "$binaries" "$target" "$seconds" "$seed" "$found/$target" "$logs/$target.log" || status=$?
            echo "$status" >"$logs/$target.status"
        ) &
        running=$((running + 1))
    done
    wait
}

# Runs every target, SECONDS in all, and prints a line for each: fuzz_all BINARIES SECONDS SEED FOUND LOGS
fuzz_all() {
    local binaries=$1 seconds=$2 seed=$3 found=$4 logs=$5 jobs=${FUZZ_JOBS:-2} target share total=0 failures=0 cases why failed
    mkdir -p "$logs"
    set -- $targets
    share=$((seconds / (($# + jobs - 1) / jobs)))
    [ "$share" -ge 1 ] || share=1
    run_all "$binaries" "$share" "$seed" "$found" "$logs"
    for target in $targets; do
        touch "$logs/$target.log"
        cases=$(executed "$logs/$target.log")
        why=$(why_failed "$(cat "$logs/$target.status" 2>/dev/null || echo 2)" "$logs/$target.log" "$share" "corpus/$target")
        failed=0
        if [ -n "$why" ]; then
            failed=1
            echo "$why"
        fi
        echo "$target: $(grouped "${cases:-0}") cases, $failed failures, corpus $(inputs "corpus/$target" "$found/$target")"
        total=$((total + ${cases:-0}))
        failures=$((failures + failed))
    done
    echo "total: $(grouped "$total") cases, $failures failures"
    [ "$failures" -eq 0 ]
}
