#!/usr/bin/env python3
"""Says in which file of rows each test of before is, and checks that none is lost.

usage: tools/rows_of_before.py

What a test states was code, in crates of tests alone; now it is rows of files, which the programs that end in _rows
check. TABLE has for each crate of before a line for each of its tests:

    MODULE::TEST -> CRATE/FILE NUMBER, ..    NUMBER rows of crates/CRATE/data/FILE, or of long_FILE beside it,
                                             say what it said, by the numbers in crates/CRATE/stdout
    MODULE::TEST stays: REASON               it is still a test of that crate, or of the one that CRATE_NOW names

The script prints each test of these crates that COMMIT has and TABLE hasn't, and the reverse; each file that is missing
or has fewer rows than the tests before; each test that stays and isn't there, or has moved and is there still. It ends
with 0 if it prints none.
"""

import collections
import itertools
import pathlib
import re
import subprocess
import sys

TOP = pathlib.Path(__file__).resolve().parent.parent
COMMIT = "4e36d724"
CRATE_NOW = dict.fromkeys(["engine_tests", "file_tests", "layout_tests", "table_tests", "text_tests"], "library_tests")
TABLE = {}

TABLE["command_tests"] = """
broken_off::flushes_what_ended -> transcript_rows/unread.txt 3
broken_off::prints_a_text_that_comes_in_pieces -> transcript_rows/reorder.txt 3
broken_off::prints_nothing_where_nothing_ended -> transcript_rows/unread.txt 9
broken_off::prints_what_ended_before_a_read_fails -> transcript_rows/unread.txt 3
broken_off::prints_what_ended_before_a_read_that_passes_the_limit -> transcript_rows/unread.txt 3
broken_off::prints_what_ended_before_bytes_that_are_not_utf8 -> transcript_rows/unread.txt 12
built_in::judges_the_rows_that_are_printed -> transcript_rows/built_in.txt 2
built_in::rejects_both -> transcript_rows/built_in.txt 4
built_in::takes_the_tables_of_the_folder_for_rows -> transcript_rows/built_in.txt 1
built_in::takes_the_tables_of_the_folder_that_is_named -> transcript_rows/built_in.txt 1
built_in::takes_the_tables_that_are_built_in -> transcript_rows/built_in.txt 4
built_in::takes_them_for_a_text_with_the_flag_too -> transcript_rows/built_in.txt 2
built_in::takes_them_for_rows -> transcript_rows/built_in.txt 4
code_points::explains_code_points_by_the_tables_of_a_folder -> transcript_rows/explain.txt 1
code_points::explains_code_points_by_the_tables_that_are_built_in -> transcript_rows/explain.txt 1
code_points::explains_no_code_points -> transcript_rows/explain.txt 3
code_points::names_the_first_item_that_is_no_code_point -> transcript_rows/explain.txt 9
code_points::says_a_faulty_item_before_faulty_tables -> transcript_rows/explain.txt 1
enumerating::draws_nothing_from_a_longer_to_a_shorter_length -> transcript_rows/rows.txt 1
enumerating::draws_rows_that_are_judged_right -> transcript_rows/rows.txt 2
enumerating::draws_with_seed_0_by_default -> transcript_rows/rows.txt 1
enumerating::prints_no_rows_from_a_longer_to_a_shorter_length -> transcript_rows/rows.txt 1
enumerating::prints_no_rows_where_none_is_drawn -> transcript_rows/rows.txt 1
enumerating::prints_rows -> transcript_rows/rows.txt 1
enumerating::prints_rows_that_are_drawn -> transcript_rows/rows.txt 1
enumerating::prints_rows_that_are_judged_right -> transcript_rows/rows.txt 2
enumerating::rejects_what_makes_no_rows -> transcript_rows/rows.txt 11
explaining::explains_no_classes -> transcript_rows/explain.txt 3
explaining::names_the_first_word_that_is_no_class -> transcript_rows/explain.txt 5
extracted::names_the_file_in_the_folder -> transcript_rows/tables.txt 4
extracted::reads_the_first_file_that_opens -> transcript_rows/tables.txt 3
fault_order::reads_no_further_where_nobody_reads -> transcript_rows/writing.txt 4
fault_order::reports_have_the_same_order -> transcript_rows/writing.txt 13
fault_order::says_else_that_a_write_failed -> transcript_rows/writing.txt 18
fault_order::says_first_that_a_read_failed -> transcript_rows/writing.txt 18
fault_order::says_then_that_a_text_is_not_utf8 -> transcript_rows/writing.txt 18
faults::keeps_the_status_where_the_fault_line_is_not_taken -> transcript_rows/writing.txt 14
faults::needs_tables_for_characters_before_it_opens_a_file -> transcript_rows/writing.txt 2
faults::reports_that_a_file_got_no_memory -> transcript_rows/writing.txt 1
faults::runs_as_usual_or_reports_that_memory_ran_out stays: it is run with each allocation failing in turn
faults::says_that_a_write_failed -> transcript_rows/writing.txt 17
faults::says_that_a_write_of_a_row_failed -> transcript_rows/writing.txt 4
file_faults::names_the_file_by_its_word -> transcript_rows/unread.txt 3
file_faults::says_that_a_file_failed -> transcript_rows/unread.txt 4
file_faults::says_that_a_file_was_not_read -> transcript_rows/unread.txt 4
file_faults::says_that_a_text_was_not_read -> transcript_rows/unread.txt 12
hard_rows::prints_hard_rows_of_characters_that_are_judged_right -> transcript_rows/rows.txt 12
hard_rows::prints_hard_rows_of_classes_that_are_judged_right -> transcript_rows/rows.txt 10
hard_rows::prints_rows_by_the_tables_of_a_folder -> transcript_rows/rows.txt 2
hard_rows::prints_rows_of_characters -> transcript_rows/rows.txt 1
hard_rows::rejects_what_makes_no_hard_rows -> transcript_rows/rows.txt 7
input::reads_standard_input -> transcript_rows/input.txt 4
input::says_that_standard_input_was_not_read -> transcript_rows/input.txt 6
judge::judges_files_of_characters -> transcript_rows/judge.txt 12
judge::judges_files_of_classes -> transcript_rows/judge.txt 10
judge::reads_no_tables_for_classes -> transcript_rows/judge.txt 1
judge::rejects_an_over_long_line -> transcript_rows/judge.txt 3
known::prints_what_the_contracts_say stays: it calls functions whose contracts state what is printed
large::a_right_row_on_the_longest_line_is_judged -> transcript_rows/long_large.txt 2
large::a_text_of_a_byte_more_is_read_up_to_it -> transcript_rows/long_large.txt 1
large::a_text_of_as_many_bytes_as_allowed_is_read -> transcript_rows/long_large.txt 1
large::a_wrong_row_on_the_longest_line_is_judged -> transcript_rows/long_large.txt 4
levels::prints_levels_under_a_direction -> transcript_rows/levels.txt 6
levels::prints_the_levels_of_a_file -> transcript_rows/levels.txt 4
levels::prints_x_where_a_position_is_removed -> transcript_rows/levels.txt 1
opened::opens_no_file_after_a_fault -> transcript_rows/opened.txt 1
opened::opens_no_tables_where_none_are_needed -> transcript_rows/opened.txt 6
opened::opens_nothing -> transcript_rows/opened.txt 8
opened::opens_standard_input_in_the_place_of_the_file -> transcript_rows/opened.txt 8
opened::opens_the_classes_of_the_folder_extracted -> transcript_rows/opened.txt 1
opened::opens_the_file_of_a_row -> transcript_rows/opened.txt 2
opened::opens_the_tables_alone_for_code_points -> transcript_rows/opened.txt 2
opened::opens_the_tables_and_then_the_file -> transcript_rows/opened.txt 5
reasons::is_reported_if_all_is_taken_and_flushed -> transcript_rows/writing.txt 10
reasons::prints_the_same_in_detail -> transcript_rows/reasons.txt 2
reasons::says_nothing_more_of_a_fault_without_a_reason -> transcript_rows/reasons.txt 3
reasons::says_what_a_line_may_have -> transcript_rows/reasons.txt 2
reasons::says_what_a_word_may_have -> transcript_rows/reasons.txt 6
reasons::says_where_a_text_is_not_utf8 -> transcript_rows/reasons.txt 8
reasons::says_which_field_is_malformed -> transcript_rows/reasons.txt 16
reasons::says_why_a_file_was_not_read -> transcript_rows/reasons.txt 17
reasons::says_why_a_table_was_not_read -> transcript_rows/reasons.txt 7
reorder::prints_the_lines_of_a_file_as_they_are_shown -> transcript_rows/reorder.txt 6
reports::compares_all_lists_by_default -> transcript_rows/report.txt 1
reports::compares_what_is_asked_for -> transcript_rows/report.txt 3
reports::continues_after_a_wrong_row_up_to_a_malformed_line -> transcript_rows/report.txt 1
reports::counts_the_wrong_cases_that_it_does_not_print -> transcript_rows/report.txt 4
reports::keeps_what_it_printed_before_a_read_fails -> transcript_rows/report.txt 1
reports::passes_over_the_paragraph_level_beside_the_order_alone -> transcript_rows/report.txt 1
reports::prints_twenty_wrong_cases_by_default -> transcript_rows/report.txt 1
reports::rejects_arguments_of_a_report -> transcript_rows/report.txt 6
reports::reports_on_files_of_characters -> transcript_rows/report.txt 1
reports::reports_places_of_shown_positions -> transcript_rows/report.txt 1
reports::says_that_a_file_is_right -> transcript_rows/report.txt 1
reports::says_that_a_file_of_a_report_was_not_read -> transcript_rows/report.txt 5
reports::says_that_a_write_of_a_report_failed -> transcript_rows/report.txt 5
row_explaining::explains_a_row_of_characters -> transcript_rows/explained_rows.txt 2
row_explaining::explains_a_row_of_standard_input -> transcript_rows/explained_rows.txt 1
row_explaining::explains_a_row_under_each_of_its_directions -> transcript_rows/explained_rows.txt 3
row_explaining::needs_tables_for_a_row_of_characters -> transcript_rows/explained_rows.txt 2
row_explaining::reads_a_file_up_to_the_row -> transcript_rows/explained_rows.txt 4
row_explaining::says_that_a_line_is_no_row -> transcript_rows/explained_rows.txt 5
row_explaining::says_that_there_is_no_such_line -> transcript_rows/explained_rows.txt 4
row_explaining::says_what_of_a_row_was_not_read -> transcript_rows/explained_rows.txt 4
row_explaining::says_which_line_up_to_the_row_is_malformed -> transcript_rows/explained_rows.txt 5
row_explaining::says_why_no_row_is_explained -> transcript_rows/explained_rows.txt 11
sizes::explains_rows_at_lines_of_any_number -> transcript_rows/sizes.txt 5
sizes::judges_any_number_of_rows -> transcript_rows/sizes.txt 5
sizes::reads_texts_of_any_size -> transcript_rows/sizes.txt 9
sizes::reports_on_any_number_of_wrong_cases -> transcript_rows/sizes.txt 4
table_faults::says_the_first_faulty_line_of_the_tables -> transcript_rows/tables.txt 40
table_faults::says_the_first_table_that_is_not_read -> transcript_rows/tables.txt 5
text_rows::prints_lines_that_are_judged_right -> transcript_rows/rows.txt 4
text_rows::prints_the_classes_of_the_lines -> transcript_rows/rows.txt 1
text_rows::prints_the_lines_of_a_text -> transcript_rows/rows.txt 7
text_rows::rejects_texts_that_make_no_rows -> transcript_rows/rows.txt 3
text_rows::says_what_of_a_text_was_not_read -> transcript_rows/rows.txt 3
unread::says_that_a_file_was_not_read_to_its_end -> transcript_rows/unread.txt 140
unread::says_that_a_read_failed -> transcript_rows/unread.txt 29
words::prints_help -> transcript_rows/arguments.txt 9
words::prints_the_version -> transcript_rows/arguments.txt 2
words::prints_why_arguments_are_rejected -> transcript_rows/arguments.txt 5
words::rejects_command_lines -> transcript_rows/arguments.txt 41
words::says_why_nothing_is_explained -> transcript_rows/arguments.txt 8
words::says_why_there_are_no_rows -> transcript_rows/arguments.txt 8
words::says_why_there_are_no_rows_of_a_text -> transcript_rows/arguments.txt 8
"""

TABLE["engine_tests"] = """
cutting_rows::cuts_after_separators -> rule_rows/paragraphs.txt 1
explicit_rows::finds_levels_and_current_classes -> rule_rows/explicit.txt 14, rule_rows/paragraphs.txt 14
implicit_rows::implicit_levels -> rule_rows/implicit.txt 6
implicit_rows::neutrals_and_implicit_levels -> rule_rows/neutral.txt 6
isolate_rows::finds_partners -> rule_rows/isolates.txt 1
order_rows::rules_one_after_another -> rule_rows/levels.txt 8
paragraph_rows::weak_types -> rule_rows/levels.txt 5
paragraph_rows::removed_in_flat_paragraphs -> rule_rows/levels.txt 4
paragraph_rows::pairs_by_contents -> rule_rows/levels.txt 5
paragraph_rows::marks_after_brackets -> rule_rows/levels.txt 3
paragraph_rows::full_stack -> rule_rows/levels.txt 2
paragraph_rows::given_limits -> rule_rows/levels.txt 6
resolve_rows::closers -> rule_rows/brackets.txt 4
rooms::rooms_of_any_size_are_made -> rule_rows/made.txt 7
rooms::too_much_room -> rule_rows/made.txt 1
rooms::says_that_memory_was_refused stays: it is run with each allocation failing in turn (tools/refused_growths.sh)
rule_rows::each_rule_by_itself -> rule_rows/weak.txt 17, rule_rows/neutral.txt 2
sequence_rows::finds_sequences -> rule_rows/sequences.txt 6
"""

TABLE["file_tests"] = """
arbitrary_rows::arbitrary_bytes_1_of_8 -> judged_rows/arbitrary.txt 22
arbitrary_rows::arbitrary_bytes_2_of_8 -> judged_rows/arbitrary.txt 19
arbitrary_rows::arbitrary_bytes_3_of_8 -> judged_rows/arbitrary.txt 12
arbitrary_rows::arbitrary_bytes_4_of_8 -> judged_rows/arbitrary.txt 14
arbitrary_rows::arbitrary_bytes_5_of_8 -> judged_rows/arbitrary.txt 18
arbitrary_rows::arbitrary_bytes_6_of_8 -> judged_rows/arbitrary.txt 15
arbitrary_rows::arbitrary_bytes_7_of_8 -> judged_rows/arbitrary.txt 11
arbitrary_rows::arbitrary_bytes_8_of_8 -> judged_rows/arbitrary.txt 15
characters_rows::rows_that_are_right -> judged_rows/characters.txt 9
characters_rows::lines_that_are_malformed -> judged_rows/characters.txt 8
characters_rows::rows_that_are_wrong -> judged_rows/characters.txt 6
characters_rows::the_given_number_of_open_brackets_is_used -> judged_rows/characters.txt 2
characters_rows::sources_are_read_to_the_end -> judged_rows/pieces.txt 1
characters_rows::making_a_judge_succeeds -> judged_rows/pieces.txt 1
characters_rows::no_growth_comes_after_making stays: it is run with each allocation failing in turn (tools/refused_growths.sh)
classes_rows::rows_that_are_right -> judged_rows/classes.txt 6
classes_rows::rows_by_rule -> judged_rows/classes.txt 12
classes_rows::the_deepest_levels -> judged_rows/classes.txt 3
classes_rows::the_given_depth_is_used -> judged_rows/classes.txt 4
classes_rows::the_nearest_lists_are_in_force -> judged_rows/classes.txt 1
classes_rows::rows_that_are_wrong -> judged_rows/classes.txt 7
classes_rows::lines_that_are_malformed -> judged_rows/classes.txt 14
judging::pieces_may_begin_anywhere -> judged_rows/pieces.txt 1
judging::lines_up_to_the_longest -> judged_rows/classes.txt 4
judging::a_line_without_end -> judged_rows/classes.txt 1
judging::sources_are_read_to_the_end -> judged_rows/pieces.txt 1
judging::a_failed_read_leaves_no_verdict -> judged_rows/pieces.txt 1
judging::making_a_judge_succeeds -> judged_rows/pieces.txt 1
judging::no_growth_comes_after_making stays: it is run with each allocation failing in turn (tools/refused_growths.sh)
limit_rows::a_depth_from_1_to_125_and_up_to_63_brackets_are_allowed -> judged_rows/limits.txt 2
limit_rows::a_depth_that_is_not_allowed_is_reported_before_too_many_brackets -> judged_rows/limits.txt 3
reading::a_reader_is_read_up_to_its_limit -> judged_rows/pieces.txt 2
reading::a_failed_read_leaves_no_verdict_on_characters -> judged_rows/pieces.txt 1
report_faults::says_first_that_the_source_failed -> judged_rows/reports.txt 9
report_faults::says_whether_all_was_written_before_the_source_failed -> judged_rows/reports.txt 5
report_faults::says_else_that_a_write_failed -> judged_rows/reports.txt 6
report_faults::reads_no_further_where_nobody_reads -> judged_rows/reports.txt 1
sources::a_reader_of_as_many_bytes_as_allowed_is_read_to_its_end -> judged_rows/readers.txt 1
sources::a_byte_past_the_limit_is_a_failure -> judged_rows/readers.txt 1
sources::an_error_of_the_reader_says_why_it_failed -> judged_rows/readers.txt 5
sources::an_error_of_the_reader_is_a_failure_for_good -> judged_rows/readers.txt 2
verdict_line::prints_each_form_of_verdict -> judged_rows/verdicts.txt 4
verdict_line::prints_verdicts_of_any_numbers -> judged_rows/verdicts.txt 39
verdict_line::says_that_a_write_failed -> judged_rows/verdicts.txt 3
"""

TABLE["layout_tests"] = """
deep::overflows -> layout_rows/layouts.txt 3
deep::isolates_inside_an_overflow -> layout_rows/layouts.txt 1
deep::pdis_inside_an_overflow -> layout_rows/layouts.txt 1
deep::pairs_63_open_brackets -> layout_rows/layouts.txt 1
deep::stops_at_64_open_brackets -> layout_rows/layouts.txt 1
deep::resets_isolates_up_to_the_end -> layout_rows/layouts.txt 1
deep::nests_isolates_deeply -> layout_rows/layouts.txt 1
deep::lays_out_with_the_given_limits -> layout_rows/layouts.txt 5
hard_rows::rows_that_engines_missed -> layout_rows/engines.txt 28
hard_rows::embeddings_that_an_engine_missed -> layout_rows/engines.txt 1
hard_rows::lines_that_engines_missed -> layout_rows/engines.txt 5
line_rows::names_the_first_fault -> layout_rows/lines.txt 5
line_rows::no_growth_comes_after_making stays: it is run with each allocation failing in turn (tools/refused_growths.sh)
line_rows::sets_lines_of_a_text -> layout_rows/lines.txt 3
line_rows::counts_a_search_through_the_paragraphs_as_25_steps stays: it is about a constant, which a contract states
line_rows::lays_out_one_line_alone -> layout_rows/lines.txt 4
line_rows::lays_out_after_too_long -> layout_rows/layouts.txt 2
line_rows::a_break_after_a_separator_adds_nothing -> layout_rows/lines.txt 2
line_rows::a_break_begins_a_line -> layout_rows/lines.txt 2
line_rows::rejects_too_large_capacity -> layout_rows/made.txt 2
parts::writes_the_order_of_a_line_in_its_text -> layout_rows/parts.txt 1
parts::links_runs_inside_runs -> layout_rows/parts.txt 1
parts::resets_by_own_classes -> layout_rows/parts.txt 1
rows::pairs_brackets -> layout_rows/layouts.txt 4
rows::embeds_and_isolates -> layout_rows/layouts.txt 6
shown_rows::mirrors_at_odd_levels -> layout_rows/layouts.txt 1, layout_rows/shown.txt 2
shown_rows::mirrors_nothing_at_even_levels -> layout_rows/layouts.txt 1, layout_rows/shown.txt 2
"""

TABLE["room_row_tests"] = """
direction_rows::level_of_the_first_paragraph -> layout_rows/directions.txt 10
direction_rows::texts_that_stay_at_level_zero -> layout_rows/directions.txt 8
room_rows::lays_out_each_source -> layout_rows/rooms.txt 47
room_shown::shows_code_points -> layout_rows/shown.txt 1
room_shown::shows_numbers -> layout_rows/shown.txt 1
room_shown::shows_utf8 -> layout_rows/shown.txt 2
room_shown::shows_utf16 -> layout_rows/shown.txt 1
room_sizes::rooms_of_any_size_are_made -> layout_rows/made.txt 14
room_sizes::rooms_of_any_size_are_reserved -> layout_rows/made.txt 14
room_sizes::a_room_that_is_too_big_is_not_made -> layout_rows/made.txt 1
text_rows::shows_each_line -> layout_rows/shown.txt 2
text_rows::names_the_first_faulty_break -> layout_rows/shown.txt 2
text_rows::shows_a_line_of_any_length -> layout_rows/shown.txt 8
text_rows::lays_out_a_text_of_any_length -> layout_rows/shown.txt 3, layout_rows/long_texts.txt 3
text_rows::rejects_a_text_that_is_too_long -> layout_rows/long_texts.txt 1
"""

TABLE["room_call_tests"] = """
room_lines::lays_out_lines_alone -> layout_rows/calls.txt 13
room_lines::lays_out_no_line_of_two_paragraphs -> layout_rows/calls.txt 3
room_lines::finds_levels_of_paragraphs -> layout_rows/calls.txt 1
room_lines::keeps_levels_before_l1 -> layout_rows/calls.txt 2
room_lines::gives_removed_characters_levels -> layout_rows/calls.txt 4
room_rejected::rejects_texts -> layout_rows/rejected.txt 17
room_rejected::rejects_code_units_without_offsets -> layout_rows/rejected.txt 2
room_rejected::sets_lines -> layout_rows/rejected.txt 5
room_rejected::leaves_lists_that_are_too_short -> layout_rows/calls.txt 4
"""

TABLE["room_tests"] = """
whole_room::a_first_strong_isolate_in_each_call -> layout_rows/filled.txt 1
whole_room::a_right_to_left_isolate_in_each_call -> layout_rows/filled.txt 1
whole_room::a_right_to_left_letter_in_each_call -> layout_rows/filled.txt 1
whole_room::each_text_may_fill_the_room -> layout_rows/filled.txt 1
whole_room::rooms_of_any_size_are_made -> layout_rows/made.txt 1, layout_rows/filled.txt 6
"""

TABLE["print_tests"] = """
letters_made::makes_letters_of_any_number_of_items -> printed_rows/letters.txt 6, printed_rows/long_texts.txt 12
rows_agree::lines_of_classes_as_at_first -> printed_rows/pieces.txt 4
rows_agree::long_lines_of_classes_as_at_first -> printed_rows/pieces.txt 1
rows_agree::long_rows_of_characters_as_at_first -> printed_rows/pieces.txt 1
rows_agree::positions_as_at_first -> printed_rows/pieces.txt 1
rows_agree::rows_of_characters_as_at_first -> printed_rows/pieces.txt 1
texts_agree::levels_as_at_first -> printed_rows/pieces.txt 1
texts_agree::levels_of_long_texts_as_at_first -> printed_rows/pieces.txt 1
texts_agree::levels_of_many_paragraphs_as_at_first -> printed_rows/pieces.txt 1
texts_agree::lines_as_at_first -> printed_rows/pieces.txt 4
texts_agree::long_lines_as_at_first -> printed_rows/pieces.txt 2
"""

TABLE["table_tests"] = """
arbitrary_tables::arbitrary_bytes_state_no_table -> table_rows/sources.txt 3
kit_classes::new_characters_differ_as_listed -> table_rows/standard.txt 7
kit_classes::older_characters_differ_as_listed -> table_rows/standard.txt 1
large_tables::as_many_classes_as_allowed -> table_rows/limits.txt 1
large_tables::as_many_brackets_as_allowed -> table_rows/limits.txt 2
large_tables::as_many_mirror_images_as_allowed -> table_rows/limits.txt 2
large_tables::characters_of_an_earlier_line -> table_rows/limits.txt 12
standard_tables::standard_tables_are_those_of_unicode -> table_rows/standard.txt 4
table_faults::faults_of_classes -> table_rows/classes.txt 9
table_faults::too_many_data_lines -> table_rows/limits.txt 1
table_faults::too_many_default_lines -> table_rows/limits.txt 1
table_faults::over_long_lines -> table_rows/limits.txt 3
table_faults::sources_that_fail -> table_rows/sources.txt 6
table_faults::says_that_memory_was_refused stays: it is run with each allocation failing (tools/refused_growths.sh)
table_faults::a_source_that_had_failed stays: the same
table_faults::texts_of_faults -> table_rows/texts.txt 11, table_rows/classes.txt 1, table_rows/sources.txt 1
table_rows::states_classes -> table_rows/classes.txt 7
table_rows::states_brackets -> table_rows/brackets.txt 4
table_rows::states_mirrors -> table_rows/mirrors.txt 2
table_rows::closing_brackets_have_their_own_keys -> table_rows/brackets.txt 1
table_rows::units_of_tables -> table_rows/together.txt 3
"""

TABLE["text_tests"] = """
explained_rows::says_that_a_write_failed -> printed_rows/faults.txt 8
explained_rows::says_what_rules_make_of_a_text -> printed_rows/explain.txt 1
explained_rows::says_what_rules_make_of_classes -> printed_rows/explain.txt 4
printed_columns::breaks_at_many_columns -> printed_rows/long_texts.txt 5
printed_faults::reads_no_further_where_nobody_reads -> printed_rows/faults.txt 1
printed_faults::says_else_that_a_write_failed -> printed_rows/faults.txt 12
printed_faults::says_first_that_the_source_failed -> printed_rows/faults.txt 9
printed_faults::says_it_of_a_later_write_and_of_a_flush -> printed_rows/faults.txt 4
printed_faults::says_then_that_the_text_is_not_utf8 -> printed_rows/faults.txt 12
printed_levels::prints_a_line_for_each_position -> printed_rows/levels.txt 11
printed_levels::says_that_a_write_failed -> printed_rows/faults.txt 3
printed_long::prints_texts_of_any_length -> printed_rows/levels.txt 1, printed_rows/reorder.txt 1, printed_rows/long_texts.txt 4
printed_out_of_memory::prints_or_says_that_memory_was_refused stays: each allocation fails (tools/refused_growths.sh)
printed_reorder::asks_the_class_of_the_position -> printed_rows/reorder.txt 2
printed_reorder::prints_each_line_as_it_is_shown -> printed_rows/reorder.txt 8
printed_reorder::says_that_a_write_failed -> printed_rows/faults.txt 3
printed_source::joins_the_bytes_of_a_character -> printed_rows/long_texts.txt 3
printed_source::leaves_what_ended_before_a_failed_read -> printed_rows/faults.txt 4
printed_source::leaves_what_ended_before_a_fault -> printed_rows/faults.txt 4
printed_source::prints_paragraph_by_paragraph -> printed_rows/levels.txt 1, printed_rows/reorder.txt 2
printed_source::says_that_the_write_of_a_later_paragraph_failed -> printed_rows/faults.txt 1
"""


def of_git(*words):
    """Returns what git prints."""
    return subprocess.run(["git", "-C", TOP, *words], check=True, capture_output=True, text=True).stdout


def tests_in(folder, source, text):
    """Returns the names of the tests of a source file below a folder."""
    module = "::".join(source.relative_to(folder).with_suffix("").parts)
    found = re.findall(r"^#\[test\]\n(?:#\[.*\]\n|//.*\n)*fn (\w+)", text, re.MULTILINE)
    return {f"{module}::{name}" for name in found}


def tests_before(crate):
    """Returns the names of the tests that a crate had."""
    folder = pathlib.PurePath("crates", crate, "src")
    names = of_git("ls-tree", "-r", "--name-only", COMMIT, f"{folder}/").split()
    sources = [pathlib.PurePath(name) for name in names if name.endswith(".rt")]
    return set().union(*(tests_in(folder, source, of_git("show", f"{COMMIT}:{source}")) for source in sources))


def tests_now(crate):
    """Returns the names of the tests that a crate has."""
    folder = TOP / "crates" / crate / "src"
    return set().union(*(tests_in(folder, source, source.read_text()) for source in folder.rglob("*.rt")))


def rows_in(crate, name):
    """Returns how many rows of a file, and of long_FILE, the program of a crate checks, as its stored output says."""
    output = (TOP / "crates" / crate / "stdout").read_text()
    return sum(map(int, re.findall(rf"^(?:long_)?{re.escape(name)}: \d+ of (\d+) rows passed$", output, re.MULTILINE)))


def places_of(crate, table):
    """Returns the rows of each test that moved, as pairs of file and number, and the tests that stay."""
    moved, stay = {}, set()
    for line in table.strip().splitlines():
        if match := re.fullmatch(r"(\S+) -> (.+)", line):
            places = [place.split() for place in match[2].split(", ")]
            moved_to = [(file, int(number)) for file, number in places]
        elif match := re.fullmatch(r"(\S+) stays: .+", line):
            moved_to = None
        else:
            sys.exit(f"no line of a table: {line}")
        test = match[1]
        if test in moved or test in stay:
            sys.exit(f"twice: {crate} {test}")
        if moved_to is None:
            stay.add(test)
        else:
            moved[test] = moved_to
    return moved, stay


def faults_of_files(needed):
    """Returns what is missing of the files that must have these numbers of rows."""
    for file, number in sorted(needed.items()):
        crate, name = file.split("/")
        path = TOP / "crates" / crate / "data" / name
        if not path.is_file():
            yield f"no file: {file}"
            continue
        rows = rows_in(crate, name)
        if rows < number:
            yield f"{file} has {rows} rows, and the tests before had {number}"


def faults():
    """Returns what is missing, a line each."""
    needed = collections.Counter()
    for crate, table in TABLE.items():
        moved, stay = places_of(crate, table)
        before, now = tests_before(crate), tests_now(CRATE_NOW.get(crate, crate))
        yield from (f"not in the table: {crate} {test}" for test in sorted(before - set(moved) - stay))
        yield from (f"no test of before: {crate} {test}" for test in sorted((set(moved) | stay) - before))
        yield from (f"does not stay: {crate} {test}" for test in sorted(stay - now))
        yield from (f"is still a test: {crate} {test}" for test in sorted(set(moved) & now))
        for file, number in itertools.chain.from_iterable(moved.values()):
            needed[file] += number
    yield from faults_of_files(needed)


def main():
    found = list(faults())
    print("\n".join(found), end="\n" if found else "")
    return int(bool(found))


if __name__ == "__main__":
    sys.exit(main())
