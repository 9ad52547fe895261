import sys


class Link:
    def __init__(self):
        self.count = 0
        self.next = None

    def before(self, link):
        self.next = link

    def step(self):
        self.count += 1
        return self.next


def walk(n):
    a, b, c, d = Link(), Link(), Link(), Link()
    a.before(b)
    b.before(c)
    c.before(d)
    d.before(a)
    link = a
    i = 0
    while i < n:
        link = link.step()
        i += 1
    return a.count + b.count + c.count + d.count


print(walk(int(sys.argv[1])))
