"""Names that all begin their search at one place of the name table, with one tag: the table's hash has a fixed seed, so anybody can
look for them. It takes gcc, and some seconds for two thousand million names."""

import os
import shutil
import subprocess
import tempfile

SEARCH = r"""
#include <stdint.h>
#include <stdio.h>
#include <stdlib.h>
static const char *all = "abcdefghijklmnopqrstuvwxyzABCDEFGHIJKLMNOPQRSTUVWXYZ0123456789";
#define M 0x9e3779b97f4a7c15ull
static uint64_t fold(uint64_t a, uint64_t b) { __uint128_t p = (__uint128_t)a * b; return (uint64_t)p ^ (uint64_t)(p >> 64); }
static uint64_t more(uint64_t s, unsigned char c) { return fold(s ^ c * 0x010101ull, M ^ 2); }
static char text[7];
static int left;
static void search(uint64_t s, int at) {
  for (int i = 0; i < (at ? 62 : 26); i++) {
    uint64_t h = more(s, text[at] = all[i]);
    if (at < 5) { search(h, at + 1); continue; }
    uint32_t hash = (uint32_t)(h ^ (h >> 32));
    if ((hash & 1023) == 5 && hash >> 24 == 7) { puts(text); if (--left == 0) exit(0); }
  }
}
int main(int count, char **words) {
  left = atoi(words[1]);
  search(fold(0x243f6a8885a308d3ull ^ 6, M ^ 16), 0);
}
"""


def meeting_names(count):
    """So many names, or none without gcc."""
    if shutil.which("gcc") is None:
        return []
    with tempfile.TemporaryDirectory() as folder:
        source, program = os.path.join(folder, "search.c"), os.path.join(folder, "search")
        with open(source, "w") as file:
            file.write(SEARCH)
        subprocess.run(["gcc", "-O2", "-o", program, source], check=True)
        return subprocess.run([program, str(count)], capture_output=True, check=True, text=True).stdout.split()
