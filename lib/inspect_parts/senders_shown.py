"""The names of the image, and who has posted."""

from .markup import element, joined, row, table
from .names import KERNEL
from .words import actor_link


def names_part(image):
    """Those of the kernel are left out. The numbers are those of the image."""
    names = image.names
    inside = [element("h2", "Names"), element("p", f"Beyond the {len(KERNEL)} of the kernel, by their numbers.")]
    if names.given:
        inside.append(element("ol", *(element("li", element("code", name)) for name in names.given), of="names", start=len(KERNEL)))
    else:
        inside.append(element("p", "none"))
    if names.brought:
        texts = joined([element("code", name) for name in names.brought], " ")
        inside.append(element("p", "Not listed in the file, and brought by its edits: ", texts))
    return element("section", *inside, id="names")


def senders_part(image):
    """Clients, then actors that have posted."""
    rows = [row(f"client {client}", last, id=f"client-{client}") for client, last in image.senders]
    rows += [row(actor_link(number), it["last"]) for number, it in enumerate(image.actors) if it["last"]]
    shown = table(("sender", "last number"), rows) if rows else element("p", "none")
    return element("section", element("h2", "Senders"), shown, id="senders")
