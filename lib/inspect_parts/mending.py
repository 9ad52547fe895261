"""Changes an image file: what is changed is checked by all rules before it takes the file's place."""

import json
import os
import sys

from common.compact import compact

from .held import new_file
from .reading import read_image
from .refused import BadImage


def changed(program, name, change):
    """What `change` says, which is given the image that the file has, and its JSON to be changed. Ends the program where the file
    stays as it is."""
    try:
        with open(name, "rb") as file:
            data = file.read()
        image, read = read_image(data), json.loads(data)
        said = change(image, read)
        text = compact(read)
        read_image(text.encode())
        write(name, text)
        return said
    except BadImage as bad:
        sys.exit(f"{program}: {name} stays as it is: {bad.line()}")
    except OSError as error:
        sys.exit(f"{program}: {name}: {error.strerror}")


def write(name, text):
    """Writes beside the file and moves that into its place."""
    with new_file(os.path.realpath(name)) as file:
        file.write(text.encode() + b"\n")
