"""Trials of what looks at the pages: a page that is wrong is found out."""

from inspect_parts.page import page
from inspect_parts.reading import read_image

from .checked import check_page
from .try_common import good_files, read

# What stands in the page of tests/inspect/everything.json, and what makes it wrong.
WRONG = (
    ("</section>", ""),
    ("</b>", "</b></b>"),
    ("<b>", "<b><i>"),
    ("</pre>", "</pre><br/>"),
    ("<title>", '<link rel="stylesheet" href="page.css"><title>'),
    ("<title>", "<title><script>alert(1)</script>"),
    ("</main>", "<script>alert(1)</script></main>"),
    ("</main>", '<img src="http://example.com/a.png"></main>'),
    ("</main>", '<a href="http://example.com">a</a></main>'),
    ("</main>", '<p onclick="alert(1)">a</p></main>'),
    ("</main>", "<!-- a --></main>"),
    ("</style>", "body { background: url(a.png); }</style>"),
    ("<style>", '<style>@import "a.css";'),
    ('id="actor-1"', 'id="actor-0"'),
    ('id="object-3-2"', ""),
    ('id="client-7"', 'id="client-8"'),
    ('href="#actor-5"', 'href="#actor-6"'),
    ('href="#edit-7"', 'href="#edit-0"'),
    ("&lt;script&gt;", "<script>"),
    ("&lt;script&gt;", "&lt;SCRIPT&gt;"),
    ("alert('1 &amp; 2')", "alert('1 2')"),
    ("&lt;&lt; other", "&lt;&lt;  other"),
    ("<b>Square</b>", "<b>Shape</b>"),
    ("<code>deep:</code>", "<code>sum</code>"),
    ("a turn still runs it", "gone"),
)


def wrong_pages():
    image = read_image(read(good_files()["everything"]))
    text = page(image, "everything")
    for right, wrong in WRONG:
        if right not in text:
            raise AssertionError(f"{right!r} is not in the page")
        if is_taken(text.replace(right, wrong), image):
            raise AssertionError(f"{wrong!r} in place of {right!r} is not found out")
    return len(WRONG)


def is_taken(text, image):
    try:
        check_page(text, image)
    except AssertionError:
        return False
    return True


TRIALS = (wrong_pages,)
