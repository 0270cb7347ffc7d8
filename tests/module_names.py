"""No script here has the name of one of Python's own modules.

Such a script is imported in that module's place by every test beside it that needs the module, also where one of Python's own imports it;
where it then ends with status 0, that test passes and has tested nothing.
"""

import pathlib
import sys

FOLDERS = "tests", "samples", "bench", "examples"


def shadowing(names):
    """The names that Python would take for its own modules."""
    return sorted(set(names) & set(sys.stdlib_module_names))


def main():
    if shadowing(["numbers", "refusal_numbers"]) != ["numbers"]:
        sys.exit("module_names.py does not know Python's own modules")
    scripts = [path for folder in FOLDERS for path in pathlib.Path(folder).rglob("*.py")]
    # a folder of scripts is a module too
    found = shadowing(name for path in scripts for name in (path.stem, path.parent.name))
    for name in found:
        print(f"a script or folder has the name of Python's own module {name}")
    print(f"module names: {len(scripts)} scripts, {len(found)} faults")
    sys.exit(1 if found or not scripts else 0)


if __name__ == "__main__":
    main()
