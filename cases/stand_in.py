"""A folder with one of the repository's scripts, and a program that stands in for the toolchain's `rt`."""
import os
import pathlib
import shutil
import subprocess

ROOT = pathlib.Path(__file__).resolve().parent.parent


def script(path, text):
    path.parent.mkdir(parents=True, exist_ok=True)
    path.write_text(text)
    path.chmod(0o755)


def set_up(folder, name, crates):
    """Puts the repository's script of this name into the folder, with this list of crates."""
    shutil.copy(ROOT / name, folder / name)
    (folder / "crates" / "p4db" / "src").mkdir(parents=True)
    (folder / "crates" / "p4db" / "specs").mkdir()
    (folder / "crates.txt").write_text(crates)


def run(folder, *words):
    """Runs the script with these words, and `rt` as the folder's bin/rt."""
    env = {**os.environ, "PATH": f"{folder}/bin:{os.environ['PATH']}"}
    ran = subprocess.run([f"{folder}/{words[0]}", *words[1:]], input="in", capture_output=True, text=True, env=env)
    return ran.returncode, ran.stdout, ran.stderr


def expect(what, got, wanted):
    if got != wanted:
        print(f"{what}: got {got}, wanted {wanted}")
