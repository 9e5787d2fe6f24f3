"""A plain program in C that reads lines one by one and writes each: what reading and writing costs by itself."""

import pathlib
import subprocess

from julampok.errors import CannotError

TEXT = r"""
#define _GNU_SOURCE
#include <stdio.h>
#include <stdlib.h>

int main(void)
{
    char *line = NULL;
    size_t places = 0;
    ssize_t read;
    while ((read = getline(&line, &places, stdin)) > 0)
        fwrite(line, 1, (size_t)read, stdout);
    free(line);
    return 0;
}
"""


def built(clock):
    """The program, which `cc -O2` builds in the clock's folder."""
    source, copier = pathlib.Path(clock.folder, "copy.c"), pathlib.Path(clock.folder, "copy")
    if copier.exists():
        return copier
    source.write_text(TEXT)
    try:
        done = subprocess.run(["cc", "-O2", "-o", copier, source], capture_output=True, text=True)
    except OSError as error:
        raise CannotError(error.strerror, "cc") from None
    if done.returncode:
        raise CannotError(f"builds no program: {done.stderr}", "cc")
    return copier
