"""Thirteen changes of the page and its policy, each of which has to make a check fail."""
import os
import shutil

import clicks
import hostile
from serving import HOME
from stage import Caught, Checks, Stage
from town import PUBLIC


def without_refresh(stage, check):
    """A refresh takes the browser to another page, whatever else there is: so without it is seen
    what else would happen.
    """
    stage.without = ("refresh",)


def signed_in(stage, check):
    """Three members, and a note to show."""
    stage.town.post(
        "ana", {"type": "Note", "content": "<p>A note</p>", "to": [PUBLIC, stage.town.id("ben")]}
    )
    stage.pages = {name: stage.member(name) for name in ("ana", "ben", "cleo")}


def with_a_note(stage, check):
    """A note of ana, whom ben follows."""
    town = stage.town
    town.post("ben", {"type": "Follow", "object": town.id("ana")})
    note = town.post("ana", {"type": "Note", "content": "Good evening", "to": [PUBLIC]})
    stage.places["morning"] = f"#/@ana/{note.split('/')[-1]}"


UNSAFE = (
    "safe.js",
    "build(parse(text), place, 0, local);",
    "place.innerHTML = policy.createHTML(text);",
)
# What is changed, as file, text and new text; whether the policy stays; and the steps, one of which
# has to fail.
CHANGES = {
    "links of any scheme": (
        [("safe.js", "['https:', 'http:', 'mailto:'].includes(url.protocol);", "true;")],
        True,
        [hostile.contents],
    ),
    "HTML of others as it is": ([UNSAFE], True, [without_refresh, hostile.contents]),
    "no policy": ([], False, [hostile.policy]),
    "HTML of others as it is, and no policy": (
        [UNSAFE],
        False,
        [without_refresh, hostile.contents],
    ),
    "a new Idempotency-Key for each try": (
        [("server.js", "pending.get(body) ?? ", "")],
        True,
        [hostile.lost_lines],
    ),
    "no Idempotency-Key": (
        [("server.js", ", 'Idempotency-Key': repeat", "")],
        True,
        [hostile.lost_lines],
    ),
    "a key that always stays": (
        [("server.js", "storages[stays ? 1 : 0]", "storages[1]")],
        True,
        [signed_in, clicks.signing_out],
    ),
    "ids of other hosts taken for this one's": (
        [("server.js", "url.origin === site && ", "")],
        True,
        [signed_in, clicks.signing_out],
    ),
    "a Remove that its author alone sees": (
        [("history.js", ", to: named('to'), cc: named('cc'), audience: named('audience')", "")],
        True,
        [signed_in, with_a_note, clicks.pinning],
    ),
    "notes without content": (
        [("app.js", "shown(note.content ?? note.name ?? '', local)", "shown('', local)")],
        True,
        [signed_in, clicks.writing],
    ),
    "buttons that are wider than a phone": (
        [("style.css", ".does { display", ".does { min-width: 30rem; display")],
        True,
        [signed_in, clicks.phone],
    ),
    "a list of members with whatever is in it": (
        [("server.js", "typeof name === 'string' && /^[a-z0-9_]+$/.test(name)", "true")],
        True,
        [hostile.listed],
    ),
    "fields without labels": (
        [("page.js", "el('label', {}, label, input)", "el('div', {}, label, input)")],
        True,
        [clicks.keyboard],
    ),
}


def changed_page(folder, changes):
    """A copy of the page with these changes, each of a text that is there once."""
    page = f"{folder}/page"
    shutil.copytree(os.path.join(HOME, "contrib/web"), page)
    for name, old, new in changes:
        with open(f"{page}/{name}") as file:
            text = file.read()
        if text.count(old) != 1:
            raise SystemExit(f"{name} has {text.count(old)} times: {old}")
        with open(f"{page}/{name}", "w") as file:
            file.write(text.replace(old, new))
    return page


def changes(path, folder, check):
    for number, (name, (edits, policy, steps)) in enumerate(CHANGES.items()):
        home = f"{folder}/change{number}"
        os.makedirs(home)
        stage = Stage(path, home, changed_page(home, edits), policy)
        caught = None
        try:
            Checks(first=True).run(stage, steps)
        except Caught as what:
            caught = what
        finally:
            stage.end()
        check(f"{name}: caught" + (f" by '{caught}'" if caught else ""), caught)
