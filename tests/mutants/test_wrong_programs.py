"""Wrong programs that no clause refuses: each is built, and caught by the test that is named beside it.

With `--build`, or by turns with `--share`, the programs are built, some minutes each, and kept in tests/out; else only
each edit is made in memory. With `--prove` the crates that an edit changes are proved with it."""
import os

import pytest
from support import wrong_programs
from support.breaks import has_test
from support.inner_runs import run_tests
from support.places import TOP
from support.planted import catches
from support.wrong_programs import edits, kept_folder
from unproved import NotBuilt

EDITS = edits()
GONE = "tests/clients/test_gone_clients.py"
KILLS, MESSAGES = "tests/storage/test_kills.py::TestKilled", "tests/program/test_messages.py"
FAULTS, CRASHES = "tests/storage/test_faults.py", "tests/storage/test_crashes.py"
CACHE, CAUSES, CLOCK, CONTROLS, ENDS, MEMORY, SHUT, SIZES = (
    f"tests/program/test_{it}.py"
    for it in ("cache", "causes", "clock", "controls", "ends", "refused_memory", "shut", "sizes"))
VOLUME = "tests/program/test_volume.py"
ORDER = "tests/program/test_order.py::test_clients_that_wait_are_answered_in_their_order"
# by the name of an edit, the test that fails
CAUGHT_BY = {
    "crashes_index_is_told_before_it_is_made": f"{CRASHES}::test_a_crash_leaves_what_was_answered[init-0]",
    "crashes_log_is_removed_before_an_opening": f"{CRASHES}::test_a_crash_leaves_what_was_answered[apply-0]",
    "crashes_writes_cut_short_are_trusted": f"{CRASHES}::test_each_change_is_synced_twice_before_it_is_told",
    "faults_failed_read_ends_the_server": f"{FAULTS}::test_a_read_that_fails_stops_its_request_alone",
    "faults_interrupted_read_ends_the_input": f"{FAULTS}::test_apply_ends_where_its_input_or_output_fails[read]",
    "faults_interrupted_write_ends_the_output": f"{FAULTS}::test_apply_ends_where_its_input_or_output_fails[write]",
    "kills_init_removes_what_is_there": f"{KILLS}::test_init_leaves_nothing_or_an_index",
    "kills_report_removes_the_log": f"{KILLS}::test_reading_loses_nothing",
    "messages_accepted_connection_is_forgotten": ORDER,
    "messages_fourth_accept_header_is_want_of_memory": f"{MESSAGES}::test_the_type_is_chosen_by_all_accept_headers",
    "messages_reply_ends_in_a_byte_more": f"{MESSAGES}::test_answered_before_the_client_ends_its_side",
    "messages_reply_waits_for_the_end_of_the_input": f"{MESSAGES}::test_answered_before_the_client_ends_its_side",
    "pip_clock_is_a_minute_fast": f"{GONE}::test_a_case_has_the_moment_of_the_clock",
    "pip_clock_is_read_once": f"{GONE}::test_a_case_has_the_moment_of_the_clock",
    "pip_flush_that_failed_is_not_told":
        f"{GONE}::test_a_client_that_is_gone_before_its_reply_is_told_by_one_line_and_its_request_stands",
    "program_accepting_is_tried_for_a_millisecond":
        f"{SHUT}::test_a_connection_that_cannot_be_accepted_is_tried_again_and_no_client_sees_it",
    "program_apply_reads_sixteen_mebibytes": f"{SIZES}::test_lines_in_memory[many-bytes]",
    "program_calls_of_the_files_tell_no_cause": f"{CAUSES}::test_a_call_that_fails_on_a_database_of_version_1",
    "program_check_prints_at_most_nine": f"{ENDS}::test_check_counts_wrong_charges",
    "program_clock_that_fails_is_1970":
        f"{CLOCK}::test_a_clock_that_gives_no_moment_ends_serve_before_anything_is_done",
    "program_each_address_is_localhost": f"{ENDS}::test_serve_listens_where_it_is_asked_to_and_says_where",
    "program_first_version_is_told_as_other_tables":
        f"{CAUSES}::test_a_call_that_fails_on_a_database_of_version_1",
    "program_last_client_is_answered_first": ORDER,
    "program_mistake_is_printed_as_it_is": f"{CONTROLS}::test_a_mistake_is_printed_with_its_line_feeds_alone",
    "program_one_that_waits_is_accepted_before_a_message":
        "tests/program/test_order.py::test_all_that_wait_are_accepted_before_each_message",
    "program_path_is_printed_as_it_is": f"{CONTROLS}::test_a_path_is_printed_without_controls",
    "program_row_of_one_name_ends_the_server":
        f"{SHUT}::test_an_invalid_row_of_one_name_that_is_looked_up_ends_no_server",
    "program_salts_of_new_logs_are_constant":
        f"{CAUSES}::test_the_logs_of_two_new_files_with_page_sums_have_other_salts",
    "program_shut_store_is_not_seen":
        f"{SHUT}::test_a_sync_that_fails_once_ends_serve_and_what_it_acknowledged_is_there",
    "program_spoilt_release_is_want_of_memory":
        f"{SHUT}::test_an_invalid_row_is_a_fault_of_the_store_and_not_of_memory",
    "program_want_of_memory_is_not_told": f"{MEMORY}::test_a_message_gets_its_reply_or_a_fault_that_changed_nothing",
    "program_words_without_memory_are_told_as_store": f"{MEMORY}::test_init_makes_an_index_or_none[share-0]",
    "sizes_first_file_alone_is_found_again": f"{CACHE}::test_files_are_found_again_and_the_oldest_goes_first",
    "sizes_json_page_is_never_found_again": f"{CACHE}::test_a_page_is_found_again",
    "sizes_long_page_of_a_project_is_never_gathered": f"{CACHE}::test_a_long_page_is_found_again",
    "sizes_newest_file_goes_first": f"{CACHE}::test_files_are_found_again_and_the_oldest_goes_first",
    "sizes_no_more_is_kept_than_by_default":
        f"{CACHE}::test_what_is_kept_takes_as_much_memory_as_it_may_and_no_more[more-than-by-default]",
    "sizes_nothing_is_kept": f"{CACHE}::test_files_are_found_again_and_the_oldest_goes_first",
    "sizes_owner_513_is_want_of_memory": f"{SIZES}::test_1100_owners",
    "sizes_root_page_is_never_found_again": f"{CACHE}::test_a_page_is_found_again",
    "sizes_root_page_of_eight_mebibytes_is_want_of_memory": f"{SIZES}::test_a_root_page_of_above_eight_mebibytes[HTML]",
    "sizes_ten_times_as_much_is_kept_by_default":
        f"{CACHE}::test_what_is_kept_takes_as_much_memory_as_it_may_and_no_more[by-default]",
    "sizes_text_keeps_the_room_that_it_grew_into": f"{CACHE}::test_a_long_page_is_found_again",
    "volume_at_a_link_is_taken": f"{VOLUME}::test_a_link_to_a_volume",
    "volume_is_looked_for_beside_a_link": f"{VOLUME}::test_a_database_at_the_end_of_a_link_has_its_volume_beside_it",
    "volume_of_other_bytes_is_made_new": f"{VOLUME}::test_init_beside_a_file_that_is_there",
}
# what clauses refuse by now: here they only try the tests
REFUSED = ("program_check_prints_at_most_nine", "sizes_first_file_alone_is_found_again",
           "sizes_json_page_is_never_found_again", "sizes_no_more_is_kept_than_by_default",
           "sizes_newest_file_goes_first", "sizes_root_page_is_never_found_again")
# of a whole run, and of the tests of one program
LONGEST, LONGEST_OF_TESTS = 3_600, 1_200


def test_each_names_an_edit_and_a_test():
    assert sorted(CAUGHT_BY) == sorted(EDITS)
    assert not [it for it in CAUGHT_BY.values() if not has_test(it)]


@pytest.mark.parametrize("name", EDITS)
def test_can_be_made(name):
    assert EDITS[name].texts()


@catches("tests/support/wrong_programs.py", "PROGRAMS / sum_of(MADE_OF)", 'PROGRAMS / "one"')
@catches("tests/support/wrong_programs.py", "{*PROGRAMS.iterdir()} - {own}", "{*PROGRAMS.iterdir()}")
@catches("tests/support/wrong_programs.py", "{*PROGRAMS.iterdir()} - {own}", "()")
def test_what_was_built_of_the_same_crates_alone_is_kept(monkeypatch, tmp_path):
    """All workers of a run have one folder for it, and so have later runs."""
    monkeypatch.setattr(wrong_programs, "PROGRAMS", tmp_path / "programs")
    for sum_of_crates, there in (("one", []), ("one", ["built"]), ("two", []), ("one", [])):
        monkeypatch.setattr(wrong_programs, "sum_of", lambda places, its=sum_of_crates: its)
        folder = kept_folder()
        assert sorted(os.listdir(folder)) == there
        open(f"{folder}/built", "w").close()


@pytest.fixture(scope="session")
def wrong_program():
    """Builds a wrong program, once, and returns its path."""
    kept = kept_folder()

    def build(name):
        program = f"{kept}/{name}"
        if not os.path.exists(program):
            EDITS[name].build(program, f"{kept}/parts")
        return program
    return build


@pytest.mark.by_turns("build")
@pytest.mark.timeout(LONGEST)
@pytest.mark.parametrize("name", EDITS)
def test_is_caught(wrong_program, name):
    try:
        program = wrong_program(name)
    except NotBuilt as why:
        pytest.fail(f"{name} is not built: {why}", pytrace=False)
    ended = run_tests(TOP, [CAUGHT_BY[name]], "--program", program, "-x", seconds=LONGEST_OF_TESTS)
    assert ended.status == 1 and ended.has_failed(CAUGHT_BY[name]), ended.said[-3_000:]


@pytest.mark.by_hand("prove")
@pytest.mark.timeout(LONGEST)
@pytest.mark.parametrize("name", [it for it in EDITS if it not in REFUSED])
def test_no_clause_refuses_it(tmp_path, name):
    assert EDITS[name].refused(str(tmp_path)) is None
