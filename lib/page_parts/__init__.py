"""A page in the browser on a served image: its server, and in web/ the files that the browser gets."""
