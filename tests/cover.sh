# Sourced by the tests that run coverage: over generated sessions in which every allowed combination of event, answer and phase is met, and with every
# event and answer something is held, the ends of pages of every size, and the LUNs of docks with one drive and with two; and over generated stores, in
# which every number of a store is.
covering='generated-bench generated-no-memory generated-no-reply generated-small generated-bus-powered generated-store
    generated-page-32 generated-page-64 generated-page-128 generated-page-other generated-two-drives generated-two-in-bursts generated-drives-other'

# make_covering GENERATE STORES FOLDER: leaves them there.
make_covering() {
    "$1" 1 200000 >"$3"/generated-bench &&
        "$1" 2 160000 --bursts --memory 0 >"$3"/generated-no-memory &&
        "$1" 3 320000 --bursts --reply 0 >"$3"/generated-no-reply &&
        "$1" 4 600000 --bursts --memory 300 --reply 12 --operations 4 >"$3"/generated-small &&
        "$1" 5 30000 --bursts --memory 300 --reply 12 --operations 4 --bus-powered >"$3"/generated-bus-powered &&
        "$1" 6 30000 --bursts --memory 300 --reply 12 --operations 4 --bus-powered --store sessions/written/store-in-force.store >"$3"/generated-store &&
        "$1" 7 60000 --page 32 >"$3"/generated-page-32 &&
        "$1" 8 60000 --page 64 >"$3"/generated-page-64 &&
        "$1" 9 60000 --page 128 >"$3"/generated-page-128 &&
        "$1" 10 60000 --page 100 >"$3"/generated-page-other &&
        "$1" 11 500000 --drives 2 >"$3"/generated-two-drives &&
        "$1" 12 200000 --bursts --drives 2 >"$3"/generated-two-in-bursts &&
        "$1" 13 120000 --drives 258 >"$3"/generated-drives-other &&
        make_stores "$2" "$3"
}

# make_stores STORES FOLDER: 1500 of them, and a session of no events that each is powered on for.
make_stores() {
    mkdir -p "$2"/stores && : >"$2"/no-events || return 1
    seed=0
    while [ $seed -lt 1500 ]; do
        seed=$((seed + 1))
        "$1" $seed >"$2"/stores/$seed || return 1
    done
}

# covers COVERAGE FOLDER: with the options that each was made for; a store that is refused is as good as none. Two more times with a store whose pages
# are smaller than the number given, or larger.
covers() {
    coverage=$1
    made_there=$2
    set -- --drives 2 "$made_there"/generated-two-drives --bursts "$made_there"/generated-two-in-bursts \
        --drives 258 "$made_there"/generated-drives-other --drives 1 \
        --page 32 "$made_there"/generated-page-32 --page 64 "$made_there"/generated-page-64 --page 128 "$made_there"/generated-page-128 \
        --page 100 "$made_there"/generated-page-other --page 256 "$made_there"/generated-bench \
        --memory 0 "$made_there"/generated-no-memory --memory 2048 --reply 0 "$made_there"/generated-no-reply \
        --memory 300 --reply 12 --operations 4 "$made_there"/generated-small --bus-powered "$made_there"/generated-bus-powered \
        --store sessions/written/store-in-force.store "$made_there"/generated-store \
        --store sessions/written/store-cut.store "$made_there"/generated-bus-powered \
        --memory 2048 --store sessions/written/store-in-force.store "$made_there"/generated-page-128 \
        --page 32 --store sessions/written/settings-restored.store "$made_there"/generated-page-32
    for store in "$made_there"/stores/*; do
        set -- "$@" --store "$store" "$made_there"/no-events
    done
    "$coverage" "$@"
}
