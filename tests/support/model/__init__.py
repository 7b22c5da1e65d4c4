"""The rules of the index as a plain program, one file for each page of docs, written from these pages alone.

`names` is NAMES.md, `rules` is REQUESTS.md with RETENTION.md, `formats` is FORMATS.md, `tables` is TABLES.md, `pages`
is PAGES.md, and `messages` is HTTP.md. Nothing here is quick or safe for use: it is what tests/model compares the
built program with. Texts are `str`; a text that is not UTF-8, as HTTP may bring one, has lone surrogates in place of
its odd bytes (Python's `surrogateescape`)."""
