"""Programs in Rattle that are tried, built without their proofs, over the crates of the project."""
import os
import shutil
import subprocess
import tempfile

TOP = os.path.dirname(os.path.dirname(os.path.abspath(__file__)))


def printed(name, crates, given):
    """What the program NAME/main.rattle of this folder prints, which stands on these crates and reads what is given."""
    with tempfile.TemporaryDirectory() as work:
        shutil.copytree(f"{TOP}/crates", f"{work}/crates", ignore=shutil.ignore_patterns("out"))
        shutil.copy(f"{TOP}/HANDLES", work)
        crate = f"{work}/crates/{name}_trial"
        os.makedirs(f"{crate}/src")
        shutil.copy(f"{TOP}/tests/{name}/main.rattle", f"{crate}/src/main.rt")
        with open(f"{TOP}/crates.txt") as source, open(f"{work}/crates.txt", "w") as copy:
            copy.write(source.read() + f"{name}_trial: {crates}\n")
        return subprocess.run(["rt", "try"], cwd=crate, input=given, capture_output=True, text=True).stdout
