"""Bugs that a program could have, each made in the model: the difference is the same from the other side."""
from unittest.mock import patch

from support.model import formats, messages, pages, rules


def by_size_alone(call):
    return call.file is not None and call.file.size != len(call.asked["body"])


def charged_again(call):
    return call.tables.charge(call.name) + len(call.asked["body"]) > call.held.quota


def full_is_over(call):
    return not call.is_undeleted() and call.tables.charge(call.name) + len(call.asked["body"]) >= call.held.quota


def transfer_ends_yanks(call):
    rules.transfer(call)
    call.held.yanks.clear()


def earliest_is_first(call):
    """The attempt with the least moment counts as the first."""
    before = call.case.first
    rules.record_attempt(call)
    if call.asked["sent"] and before is not None:
        call.case.first = min(before, call.at)


def last_is_latest(call):
    rules.upload(call)
    call.held.latest = call.at


def prohibit_keeps_files(call):
    files = call.tables.undeleted(call.name)
    bodies = {name: file.body for name, file in files.items()}
    rules.prohibit(call)
    for name, file in files.items():
        file.body = bodies[name]


JSON_FILE, COVERAGE, WRITTEN, ANSWERED = pages.json_file, pages.coverage, messages.written, messages.answered


def yanked_without_reason(*of_file):
    listed = JSON_FILE(*of_file)
    return {**listed, "yanked": True} if "yanked" in listed else listed


def least_specific(media_range):
    covered, specificity = COVERAGE(media_range)
    return covered, -specificity


def head_with_body(method, *reply):
    return WRITTEN("GET", *reply)


def again_is_created(method, answer):
    reply = ANSWERED(method, answer)
    return reply.replace(b" 200 OK", b" 201 Created", 1) if method == "PUT" else reply


def behind_empty_lines(message):
    return "HEAD" if message.lstrip(b"\r\n").startswith(b"HEAD ") else ""


UNYANK_LEFT_OUT = rules.REQUESTS_OF_OWNERS - {"unyank"}
# By its name: its kind, and what is changed in the model.
BREAKS = {
    "last_owner_may_go": ("verdicts", patch.dict(rules.APPLIES, {20: rules.never})),
    "banned_file_comes_back": ("verdicts", patch.dict(rules.APPLIES, {25: rules.never})),
    "file_name_is_bound_to_its_size_alone": ("verdicts", patch.dict(rules.APPLIES, {24: by_size_alone})),
    "prohibited_files_stay": ("verdicts", patch.dict(rules.EFFECT, {"prohibit": prohibit_keeps_files})),
    "transfer_ends_yanks": ("verdicts", patch.dict(rules.EFFECT, {"transfer": transfer_ends_yanks})),
    "yank_has_no_reason": ("pages", patch.object(pages, "json_file", yanked_without_reason)),
    "requires_python_is_not_escaped": ("pages", patch.object(pages, "escaped", lambda value: value)),
    "least_specific_range_counts": ("pages", patch.object(pages, "coverage", least_specific)),
    "reply_to_head_has_a_body": ("replies", patch.object(messages, "written", head_with_body)),
    "reply_to_faulty_head_has_a_body": ("replies", patch.object(messages, "method_by_start", lambda message: "")),
    "faulty_head_is_known_behind_empty_lines": ("replies", patch.object(messages, "method_by_start",
                                                                        behind_empty_lines)),
    "upload_again_is_created": ("replies", patch.object(messages, "answered", again_is_created)),
    "a_body_of_a_post_may_be_longer": ("replies", patch.dict(messages.MOST_BODY, POST=65_537)),
    "line_may_be_longer": ("replies", patch.object(formats, "MOST_LINE", 65_537)),
    "upload_again_needs_room": ("quotas", patch.dict(rules.APPLIES, {26: charged_again})),
    "full_quota_is_never_reached": ("quotas", patch.dict(rules.APPLIES, {26: full_is_over})),
    "quota_below_charge_is_taken": ("quotas", patch.dict(rules.APPLIES, {27: rules.never})),
    "case_is_ready_a_second_early": ("cases", patch.object(rules, "SIX_WEEKS", rules.SIX_WEEKS - 1)),
    "year_is_a_second_short": ("cases", patch.object(rules, "TWELVE_MONTHS", rules.TWELVE_MONTHS - 1)),
    "earliest_attempt_is_the_first": ("cases", patch.dict(rules.EFFECT, {"record_attempt": earliest_is_first})),
    "last_upload_is_the_latest": ("cases", patch.dict(rules.EFFECT, {"upload": last_is_latest})),
    "unyank_leaves_the_case": ("cases", patch.object(rules, "REQUESTS_OF_OWNERS", UNYANK_LEFT_OUT)),
}
