"""What to do about a refusal of the index, by its name.

A sentence may name what only the caller knows, such as `{owners}`. A part in square brackets is left out if the caller
does not know it; outside of them stands what a reader can look for in its place."""
from __future__ import annotations

import re

HINTS: dict[str, str] = {
    "BadToken": "No user has this token[, which comes from {source}]. Correct it there, or ask the office for another.",
    "NotOffice": "Only a user of the office may do this.",
    "BadUser": "A user id is 1 to 32 of the letters a to z and the digits 0 to 9.",
    "BadName": "This is not a project's name: letters, digits, `.`, `_` and `-`, with a letter or digit at both ends.",
    "BadFileName": "The index takes no such file name. Rename the project or the version.",
    "BadRelease": "A release is the version in a file's name: letters, digits, `.`, `_`, `+` and `!`, and no hyphen.",
    "BadText": "A text has at most 512 bytes and no control character; a text of a case has at least one byte.",
    "BadDigest": "This is not a SHA-256 digest. `indexctl token digest` prints that of a token.",
    "TooLarge": "A file has at most 16,777,216 bytes.",
    "DigestMismatch": "The bytes changed on the way, or the file changed meanwhile. Run this again.",
    "QuotaTooLarge": "A quota is 1 TiB at most.",
    "NoUser": "There is no user {user}. Is the id spelled right? The office adds a user by `indexctl user add`.",
    "UserExists": "There is a user {user} already, with another token or another office flag, and nothing was changed. "
                  "`indexctl user rotate {user}` gives that user another token.",
    "TokenTaken": "Another user has this token. Make a new one.",
    "NameProhibited": "The office has prohibited this name. Ask the office, or choose another name.",
    "NoProject": "Nobody holds this name: claim it first, by `indexctl name claim {name}` or by `indexctl upload "
                 "--claim`.",
    "NotOwner": "Only an owner may do this[: {owners}]. Ask one of them for `indexctl owner add YOU {name}` "
                "(add_owner).",
    "NameHeld": "It belongs to {owners}. Ask for `indexctl owner add YOU {name}`, choose another name, or open a case.",
    "LastOwner": "{user} is its only owner. Add another first, or give it up by `indexctl name relinquish {name}`.",
    "FilesRemain": "It still has {files}. Delete them first by `indexctl file delete`; `indexctl files {name}` lists "
                   "them.",
    "NoFile": "No such file was ever uploaded. Is it spelled right?",
    "NoRelease": "No file of this release is there.[ The name has {releases}.]",
    "FileNameTaken": "This file name stands for other bytes for good. Raise the version, or build so that the same "
                     "source gives the same bytes.",
    "FileBanned": "The office has banned this file for good. Raise the version.",
    "OverQuota": "The project's quota is full[: {charge} of {quota}]. Delete files that nobody needs (`indexctl files "
                 "{name}` lists them), or ask the office for more.",
    "QuotaBelowCharge": "Its files have {charge}, and the quota can't be less. Delete files first.",
    "CaseOpen": "{candidate} has opened a case on it already, and a name has one at a time.",
    "OwnerCandidate": "You own this name already.",
    "NoCase": "No case is open on it. Each request of an owner ends one.",
    "AttemptsFull": "The case has 1,000 attempts, which is the most.",
    "TooFewAttempts": "It lacks {lacks}.",
    "TooEarly": "It lacks {lacks}.",
    "RecentRelease": "Its latest upload is less than a year old.[ The year is over by {latest} at the latest.]",
    "HomePageActive": "All else is there. Look at the owner's home page, and state --quiet if it shows no activity.",
    "BadMoment": "The clock of the index is wrong.",
    "BadBody": "The index does not know this request. Does the client come from another version than the index?",
    "BodyTooLarge": "The index or what stands in front of it takes no file of this size. Split it, or serve it from "
                    "elsewhere.",
    "NoRoute": "The address is not that of an index, or has a path.",
    "Store": "The index could not write to its disk. Tell the office.",
}


def hint(refusal: str, **known: str) -> str:
    """What to do about a refusal, or nothing if there is no hint. What is not known is left out, or stands as `..`."""
    text = re.sub(r"\[([^\]]*)\]", lambda found: found[1] if fields_of(found[1]) <= set(known) else "",
                  HINTS.get(refusal, ""))
    return re.sub(r"\{(\w+)\}", lambda found: known.get(found[1], ".."), text)


def fields_of(text: str) -> set[str]:
    """The names in braces: what a caller may look up, if a sentence has it."""
    return set(re.findall(r"\{(\w+)\}", text))
