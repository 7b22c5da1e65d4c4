"""The pages as HTML, made of list.html and project.html."""
from __future__ import annotations

import html
import urllib.parse
from typing import Container, Iterable, Iterator, List, Mapping, Optional, Sequence, Tuple

from indexctl.contents import FileRow, Release
from indexctl.page import kind_of, part_of_page, text_of
from indexctl.site.about import About, need_of
from indexctl.site.needs import MOST_SHOWN, Around, uploaded_at
from indexctl.site.projects import Project
from indexctl.standings import Case, Standing
from indexctl.units import counted, human, iso, moment
from package_index.names import file_path, normal

NONE = '<p class="soft">No file has been uploaded yet.</p>\n'
FEED = '<link rel="alternate" type="application/atom+xml" title="Changes" href="feed.xml">\n'
# a project with more releases has the others folded away
MOST_OPEN = 8
KINDS = {"continue": "to continue the project", "reuse": "to reuse the name"}


def link(path: str, text: str) -> str:
    return f'<a href="{html.escape(path)}">{text_of(text)}</a>'


def list_page(url: str, projects: Sequence[Project], around: Around) -> str:
    """The list of all projects."""
    return part_of_page("site/list.html").format(
        host=host_of(url), count=counted(len(projects), "project"), kind=kind_of("projects", projects),
        hidden="" if projects else " hidden", projects="".join(map(list_row, projects)),
        first="" if projects else first_steps(url), feed=FEED if around.has_feed else "",
        links=", ".join([*([link("feed.xml", "a feed of changes")] if around.has_feed else []),
                         link("projects.json", "all projects as JSON")]))


def missing_page(url: str) -> str:
    """What stands at an address that has no page."""
    return part_of_page("site/404.html").format(host=host_of(url))


def host_of(url: str) -> str:
    return text_of(urllib.parse.urlsplit(url).netloc)


def copied(command: str) -> str:
    """A command, beside which the script puts a button that copies it."""
    return f'<div class="copied"><pre><code>{text_of(command)}</code></pre></div>\n'


def first_steps(url: str) -> str:
    """How an index gets its first project."""
    return ("<p>Nothing is here yet. Whoever has a token publishes the first release:</p>\n"
            + copied(f"curl -fsSO {url}/indexctl")
            + copied(f"INDEX_URL={url} INDEX_TOKEN_FILE=token python3 indexctl upload --claim dist/"))


def newest_text(project: Project) -> str:
    """The newest release, or why there is none."""
    is_yanked = any(files[0].yanked is not None for _, files in project.releases)
    return project.newest or ("all yanked" if is_yanked else "no release")


def list_row(project: Project) -> str:
    """A project in the list."""
    found = project.standing
    case = ' <span class="tag">a case is open</span>' if found.case else ""
    summary = f'<p class="summary">{text_of(project.about.summary)}</p>' if project.about.summary else ""
    return (f"<li>{link(f'projects/{found.name}.html', found.shown)} "
            f'<span class="newest">{text_of(newest_text(project))}</span>{case}{summary}'
            f'<p class="soft">{text_of(", ".join(found.owners))}</p></li>\n')


def project_page(url: str, project: Project, description: str, around: Around) -> str:
    """The page of a project, with its description as HTML."""
    found = project.standing
    summary = f'<p class="summary">{text_of(project.about.summary)}</p>\n' if project.about.summary else ""
    facts = "".join(f"<dt>{head}</dt><dd>{value}</dd>\n" for head, value in facts_of(found, project, around))
    parts = {"install": install_part(url, project), "description": description_part(description),
             "needs": rows_part(need_row(it, around.users) for it in project.about.needs),
             "needed by": users_part(around.users[found.name]),
             "releases": releases_part(found.name, project.releases, around.uploaded),
             "classifiers": rows_part(f"<li>{text_of(it)}</li>\n" for it in sorted(project.about.classifiers))}
    places = {key: key.replace(" ", "-") for key, text in parts.items() if text}
    whole = "".join(f'<h2 id="{place}">{key.capitalize()}</h2>\n{parts[key]}' for key, place in places.items())
    return part_of_page("site/project.html").format(
        host=host_of(url), name=found.name, shown=text_of(found.shown), summary=summary,
        facts=facts, places=", ".join(link(f"#{place}", key) for key, place in places.items()), parts=whole)


def description_part(description: str) -> str:
    """The description in an element of its own, out of which none of its own leads."""
    return f'<div class="description">\n{description}\n</div>\n' if description else ""


def rows_part(rows: Iterable[str]) -> str:
    """A list of short rows, side by side if there is room, or nothing."""
    made = "".join(rows)
    return f'<ul class="columns">\n{made}</ul>\n' if made else ""


def need_row(need: str, held: Container[str]) -> str:
    """A requirement, with a link if the index has a project of that name."""
    name, rest = need_of(need) or ("", need)
    page = normal(name)
    shown = link(f"{page}.html", name) if page in held else text_of(name)
    return f'<li>{shown} <span class="soft">{text_of(rest)}</span></li>\n'


def users_part(users: Sequence[str]) -> str:
    """The projects that need this one. Of many, projects.json has all."""
    rows = [f"<li>{link(f'{it}.html', it)}</li>\n" for it in users[:MOST_SHOWN]]
    more = len(users) - len(rows)
    return rows_part([*rows, f"<li>and {more} more</li>\n"] if more else rows)


def facts_of(found: Standing, project: Project, around: Around) -> Iterator[Tuple[str, str]]:
    """What is said of a project above its releases, as HTML."""
    at = uploaded_at(project.newest, project, around.uploaded)
    yield "newest release", text_of(newest_text(project)) + ("" if at is None else f", uploaded {time_of(at)}")
    yield "owners", text_of(", ".join(found.owners))
    yield from facts_of_wheel(project.about)
    size = f"{human(found.charge)} of {human(found.quota)}"
    yield "size", f"{counted(sum(len(files) for _, files in project.releases), 'file')}, {size}"
    if found.case:
        yield "open case", case_text(found.case)


def facts_of_wheel(about: About) -> Iterator[Tuple[str, str]]:
    if about.home:
        address = html.escape(about.home)
        yield "home page", f'<a href="{address}" rel="noreferrer nofollow">{address}</a>'
    if about.links:
        yield "links", f'<ul>{"".join(map(link_row, about.links))}</ul>'
    if about.licence:
        yield "licence", text_of(about.licence)


def link_row(found: Tuple[str, str]) -> str:
    """A link that the project names, with the host that it leads to."""
    label, url = found
    host = text_of(urllib.parse.urlsplit(url).hostname)
    return (f'<li><a href="{html.escape(url)}" rel="noreferrer nofollow">{text_of(label) or host}</a> '
            f'<span class="soft">{host}</span></li>')


def case_text(case: Case) -> str:
    kind = text_of(KINDS.get(case.kind, case.kind))
    return f"{text_of(case.candidate)} asks for this name, {kind}, since {moment(case.opened)}"


def install_part(url: str, project: Project) -> str:
    """How pip and uv install the project, if they can."""
    if not project.newest:
        return ""
    name = project.standing.name
    lines: List[str] = [f"python3 -m pip install --index-url {url}/simple/ {name}",
                        f"uv add --default-index {url}/simple/ {name}"]
    return "".join(map(copied, lines))


def releases_part(name: str, releases: Sequence[Release], uploaded: Mapping[str, int]) -> str:
    """The releases, of which the newest are open."""
    parts, older = [release_part(name, it, uploaded) for it in releases], releases[MOST_OPEN:]
    yanked = sum(files[0].yanked is not None for _, files in older)
    told = counted(len(older), "older release") + (f", {yanked} yanked" if yanked else "")
    folded = f'<details><summary>{told}</summary>\n{"".join(parts[MOST_OPEN:])}</details>\n' if older else ""
    return "".join(parts[:MOST_OPEN]) + folded or NONE


def release_part(name: str, release: Release, uploaded: Mapping[str, int]) -> str:
    """A release with its files."""
    version, files = text_of(release[0]) or "without a version", release[1]
    yanked = files[0].yanked
    reason = f": {text_of(yanked)}" if yanked else ""
    mark = "" if yanked is None else f'<p class="yanked">Yanked{reason}</p>\n'
    lines = "".join(file_row(name, it, uploaded.get(it.file)) for it in files)
    return (f'<section aria-labelledby="release-{version}"><h3 id="release-{version}">{version}</h3>\n{mark}'
            f'<ul class="files">\n{lines}</ul></section>\n')


def time_of(at: int) -> str:
    return f'<time datetime="{iso(at)}">{moment(at)}</time>'


def file_row(name: str, file: FileRow, at: Optional[int]) -> str:
    python = f", Python {text_of(file.python)}" if file.python else ""
    when = "" if at is None else f", uploaded {time_of(at)}"
    facts = f"{human(file.size)}{python}{when}"
    return (f'<li>{link(file_path(name, file.file), file.file)} <span class="soft">{facts}</span>\n'
            f'<p class="soft">SHA-256 <code>{text_of(file.sha256)}</code></p></li>\n')
