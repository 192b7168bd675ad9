#!/bin/sh
# Runs the tests in which threads sleep and wake one another in many rounds, RUNS times each (20), and fails where one
# of them fails or has not ended after LIMIT seconds (60). It needs the tests built by `rt test` in crates/head_tests,
# crates/wait_tests, crates/sem_tests, crates/futex_tests, crates/poll_tests, crates/user_tests, crates/copy_tests,
# crates/merge_tests and crates/examples_threads, or in those of them that are named: `bench/park_often.sh futex_tests`
# runs the tests of that crate alone. JOBS: how many runs there are at once (1). BUSY: how many loops keep processors busy
# meanwhile (0). ONLY: a part of the names of the tests that are run (all). So a thousand runs of a crate under load are
# `RUNS=1000 JOBS=4 BUSY=4 bench/park_often.sh futex_tests`.
set -eu
cd "$(dirname "$0")/.."
. bench/busy.sh

named=" $* "
failed=0

# Runs a test of a crate.
runs() {
    good=$(seq "${RUNS:-20}" | xargs -P "${JOBS:-1}" -I RUN \
        sh -c 'timeout "$1" "$2" "$3" >/dev/null 2>&1 && echo well || :' RUN "${LIMIT:-60}" \
        "crates/$1/out/$1_tests" "$2" | wc -l)
    echo "$2: $good of ${RUNS:-20} runs ended well"
    [ "$good" -eq "${RUNS:-20}" ] || failed=1
}

# Runs those of a crate's tests that are asked for.
often() {
    crate=$1
    shift
    case $named in
        "  " | *" $crate "*) ;;
        *) return 0 ;;
    esac
    for name in "$@"; do
        case $name in
            *"${ONLY:-}"*) runs "$crate" "$name" ;;
        esac
    done
}

often head_tests steps::parks::sleeps_end steps::parks::three_hand_on heads::sleepers::walk_over_arrivals \
    heads::sleepers::walk_over_sleepers heads::tickets::tickets
often wait_tests events::threads::waiters_are_joined events::selected::selected_not_lost \
    events::flags::hearers_are_joined completions::threads::permits \
    completions::leave_threads::left_waiters_lose_no_permit leaves::threads::left_waiter_passes_its_wake \
    leaves::threads::waits_are_left_from_their_sleep leaves::holders::left_taker_keeps_nothing_from_others \
    leaves::pool::pool_is_shut_down_with_each_job_done_once simple_queues::threads::waiters_are_joined \
    bits::lock_threads::two_take_one_bit_in_turn bits::tallies::two_add_to_one_tally \
    pages::threads::two_take_one_page_in_turn pages::threads::tally_of_four \
    variables::threads::waiter_sees_each_value
often examples_threads tests::values_in_their_order tests::statuses_to_their_users
often futex_tests monitors::monitor tallies::tally_of_four races::signal_races_with_a_wake
often poll_tests rounds::each_set_is_seen rounds::signal_ends_it_only_where_neither_is_set
often sem_tests five::four_permits rounds::signal_beside_an_up_loses_and_doubles_no_permit \
    rounds::left_down_beside_an_up_and_a_second_one_gets_it_or_leaves_it
often user_tests pipes::full_pieces::full_pieces_pass_one_by_one \
    pipes::streams::bytes_come_out_as_they_went_in users::strangers::strangers_on_one_head \
    users::rounds::simple_waiter_is_joined users::rounds::waiter_for_one_is_joined
often copy_tests tests::faults::source_fails tests::faults::sink_fails tests::faults::workers_are_killed \
    tests::faults::plain_signals_change_nothing tests::meeting::workers_meet_in_their_first_turns
often merge_tests tests::tables::merges_in_rounds tests::faults::sources_fail \
    tests::late::whichever_has_bytes_first
exit "$failed"
