"""Sessions that go on at once."""

import threading


def run_together(server, *parts):
    """Lets sessions go on at once, each in a part that is given its client, and waits until all have ended."""
    errors = []

    def run(part):
        try:
            with server.client() as client:
                part(client)
        except BaseException as error:
            errors.append(repr(error))
            raise

    threads = [threading.Thread(target=run, args=(part,)) for part in parts]
    for thread in threads:
        thread.start()
    for thread in threads:
        thread.join()
    assert not errors, errors
