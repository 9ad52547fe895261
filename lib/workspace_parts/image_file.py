"""Image files on the workspace's side: what one says, and whether one can be written. docs/FORMAT.md describes them; the reader
is that of bin/inspect."""

import os
import shutil
import tempfile

from inspect_parts.deep import deeply
from inspect_parts.held import new_file
from inspect_parts.reading import read_image
from inspect_parts.refused import BadImage

from .wrong import Wrong


def read(name):
    """The image of a file; None if nothing is there."""
    try:
        with open(name, "rb") as file:
            data = file.read()
    except FileNotFoundError:
        return None
    except OSError as error:
        raise Wrong(f"{name} cannot be read ({error.strerror})") from None
    image = deeply(lambda: image_of(data))
    if image is None:
        raise Wrong(f"{name} could not be read, for the reason above")
    if isinstance(image, BadImage):
        raise Wrong(f"{name} is refused, and stays as it is; place {image.line()}")
    return image


def image_of(data):
    """The image of these bytes, or what refuses them."""
    try:
        return read_image(data)
    except BadImage as bad:
        return bad


def check_room(name):
    """Wrong if no file can be written beside `name`."""
    try:
        with tempfile.TemporaryFile(dir=os.path.dirname(os.path.realpath(name))):
            pass
    except OSError as error:
        raise Wrong(f"{name} cannot be written ({error.strerror})") from None


def copy(path, name):
    """What is at `name` stays until the copy is whole."""
    place = os.path.realpath(name)
    try:
        with open(path, "rb") as file, new_file(place) as beside:
            shutil.copyfileobj(file, beside)
    except OSError as error:
        raise Wrong(f"{name} cannot be written ({error.strerror}), and what was there stays; the image goes on") from None
