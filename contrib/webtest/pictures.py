"""The pictures of docs/: home on a desktop, and a note on a phone."""
import os

from town import PUBLIC


def speak(town, name, text, to=None, **more):
    """Posts a note of paragraphs, and returns its id."""
    tag = [
        {"type": "Mention", "href": town.id(other), "name": f"@{other}"}
        for other in town.keys
        if f"@{other}" in text
    ]
    for mention in tag:
        text = text.replace(mention["name"], f"<a href='{mention['href']}'>{mention['name']}</a>")
    content = "".join(f"<p>{part}</p>" for part in text.split("\n"))
    note = {
        "type": "Note",
        "content": content,
        "to": to or [PUBLIC],
        "tag": tag,
        "cc": [mention["href"] for mention in tag] + ([] if to else [f"{town.id(name)}/followers"]),
    }
    return town.post(name, note | more).replace("/a/", "/o/")


def town_of_notes(town):
    for name in ("ana", "cleo", "dan"):
        town.post("ben", {"type": "Follow", "object": town.id(name)})
    town.post("cleo", {"type": "Follow", "object": town.id("ben")})
    boat = speak(
        town,
        "cleo",
        "The boat house has a new roof. Thanks to all nine of you who came on Saturday, and to @dan for the ladder.",
    )
    speak(
        town,
        "ana",
        "The path to the lake is paid for, and the fee stays as it is.",
        summary="Long: minutes of the October meeting",
    )
    concert = speak(
        town,
        "ana",
        "The choir sings on the first of December, at four, in the old mill.\n"
        "There are still places for two altos: <strong>write to me.</strong>",
    )
    town.post("ben", {"type": "Like", "object": concert})
    town.post(
        "ana",
        {"type": "Announce", "object": boat, "to": [PUBLIC], "cc": [f"{town.id('ana')}/followers"]},
    )
    speak(town, "cleo", "@ana Can I bring a friend who has never sung?", inReplyTo=concert)
    speak(town, "ben", "@ana Count me in. I can bring the lamps, too.", inReplyTo=concert)
    speak(town, "cleo", "@ben Will you take the oars on Sunday?", to=[town.id("ben")])
    return concert


def pictures(stage, check):
    concert = town_of_notes(stage.town)
    desk = stage.member("ben", width=900, height=900)
    desk.in_note("Will you take the oars", "a => true")
    stage.picture(desk, "page-home")
    phone = stage.member("ana", width=360, height=640, mobile=True, scale=2)
    phone.send(
        "Emulation.setEmulatedMedia", features=[{"name": "prefers-color-scheme", "value": "dark"}]
    )
    phone.go("#/@ana/" + concert.split("/")[-1])
    stage.picture(phone, "page-note")
    sizes = [
        os.path.getsize(os.path.join(stage.pictures, f"{name}.png"))
        for name in ("page-home", "page-note")
    ]
    check("the pictures are small", max(sizes) < 150_000, f"{sizes}")


STEPS = [pictures]
