"""The pictures in docs/ are those of examples/, and the program's reports of these sessions are the model's, where it runs them."""
import json
import pathlib
import subprocess
import sys
import tempfile

ROOT = pathlib.Path(__file__).resolve().parent.parent.parent
sys.path.insert(0, str(ROOT / "cases"))
from model import report

with tempfile.TemporaryDirectory() as folder:
    subprocess.run([sys.executable, "-B", str(ROOT / "tools" / "pictures.py"), folder], check=True)
    for made in sorted(pathlib.Path(folder).iterdir()):
        if made.read_text() != (ROOT / "docs" / "pictures" / made.name).read_text():
            print(f"docs/pictures/{made.name} isn't current: tools/pictures.py draws it anew")
for example in sorted((ROOT / "examples").glob("*.json")):
    text = example.read_bytes()
    ran = subprocess.run([sys.argv[1], "run"], input=text, capture_output=True)
    if ran.returncode == 0 and ran.stdout.decode() != report(json.loads(text)):
        print(f"the report of examples/{example.name} isn't the model's")
    elif ran.returncode not in (0, 10):
        print(f"examples/{example.name} ended with status {ran.returncode}")
