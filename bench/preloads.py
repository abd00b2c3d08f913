"""Small libraries of C that are loaded into a program before the C library, and see what it takes of that."""

import os
import subprocess


def library_of(folder, name, source, **numbers):
    """The library of this source, made in a folder by gcc, with these numbers under their names."""
    written, made = (os.path.join(folder, name + end) for end in (".c", ".so"))
    with open(written, "w", encoding="utf-8") as file:
        file.write(source)
    defined = [f"-D{key}={number}" for key, number in numbers.items()]
    subprocess.run(["gcc", "-O2", "-fPIC", "-shared", "-fno-builtin", *defined, "-o", made, written], check=True)
    return made
