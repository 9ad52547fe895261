import sys


def count(n):
    i = 0
    while i < n:
        i += 1
    return i


print(count(int(sys.argv[1])))
