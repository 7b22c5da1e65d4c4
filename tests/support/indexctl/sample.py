"""An index of made-up names, for the page of the office."""
from support.indexctl.control import DAY, line, upload_line, user_lines
from support.packages import wheel_name

USERS = "amara", "bea", "chidi", "dana", "ewan", "farid", "greta", "hugo", "ines", "jonas", "pipeline"
NAMES = {
    "Aurora-Client": ("amara bea", 31_000), "aurora-schemas": ("amara", 0), "basalt": ("chidi", 9_000),
    "Beacon.Metrics": ("bea dana pipeline", 29_500), "cartograph": ("dana", 14_000), "copperleaf": ("ewan", 0),
    "driftwood": ("farid", 0), "Ember-Cache": ("greta pipeline", 30_500), "fernlight": ("greta", 0),
    "glasshouse": ("hugo", 4_000), "Harbor.Auth": ("hugo ines pipeline", 21_000), "inkwell": ("ines", 0),
    "juniper-forms": ("jonas amara", 12_000), "kiteline": ("jonas", 0), "lanternfish": ("chidi bea", 17_000),
    "moss": ("ewan", 800), "northwind-etl": ("dana farid pipeline", 26_500), "orchard": ("farid", 23_000),
}
QUOTA = 32_000
MARKUP = "<script>document.title = 'taken'</script> & \"quoted\""
# name, candidate, kind, days since the opening, the three texts, and the attempts: days ago, means, and if it was sent
CASES = (
    ("glasshouse", "jonas", "continue", 60,
     ("Two letters to hugo@example.com in May, both returned; a call to the team he left.",
      "A fork with wheels for Python 3.13 and four fixed crashes, in use by three teams.",
      "Twelve projects pin this name."),
     ((50, "profile", True), (49, "author", True), (40, "profile", True), (40, "pages", False))),
    ("basalt", "ines", "reuse", 20,
     ("Letters to the address in the profile, no answer since June.",
      "The geology group's 'basalt' has 300 users & its own site.",
      "Two papers cite the archive by this name."),
     ((18, "profile", True), (15, "author", True), (9, "pages", True))),
    ("cartograph", "farid", "continue", 70,
     ("Asked in the channel and by mail, twice.", "A fork that reads the new map tiles.",
      "The tiles' schema names the package."),
     ((64, "profile", True), (60, "author", True), (55, "pages", True))),
    ("moss", "greta", "reuse", 2,
     ("One letter; it came back.", "A list of mosses, used by four labs.", "Short names are few."), ()),
)


def lines_of(now, markup=False):
    """The lines that make the index, as seen at this moment; with markup in a text, as an attacker would have it."""
    yield from user_lines(*USERS)
    for name, (owners, size) in NAMES.items():
        first, *others = owners.split()
        yield line(now - 500 * DAY, first, "claim", name=name)
        for user in others:
            yield line(now - 500 * DAY, first, "add_owner", name=name, user=user)
        yield line(now - 500 * DAY, "office", "set_quota", name=name, quota=QUOTA)
        if size:
            file = wheel_name(name.lower().replace("-", "_").replace(".", "_"), "1.4.0")
            yield upload_line(now - (200 if name == "cartograph" else 420) * DAY, first, file, size)
    for name, user, kind, days, (contact, work, why), attempts in CASES:
        yield line(now - days * DAY, user, "open_case", name=name, kind=kind, contact=contact,
                   work=MARKUP if markup else work, why=why)
        for ago, means, sent in attempts:
            yield line(now - ago * DAY, "office", "record_attempt", name=name, means=means, sent=sent)
