"""Scripts with the replies that they must get, from texts and made here, and how a built program is run on them."""
