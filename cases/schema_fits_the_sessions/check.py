"""docs/session.schema.json takes each session that the program takes, and refuses each text of a wrong form or over a limit that it can tell."""
import json
import pathlib
import sys

try:
    import jsonschema
except ImportError:
    print("skipped: Python's jsonschema isn't installed here", file=sys.stderr)
    sys.exit(0)

ROOT = pathlib.Path(__file__).resolve().parent.parent.parent
# what no schema can say: ids in order, a split above the stages, items of all clients together, a repeated key, 1.0 as no whole number
BEYOND = {"fault_2_tuples_out_of_order", "fault_2_tuple_twice", "fault_3_split", "fault_3_too_many_items", "fault_2_tries_with_a_point"}
schema = json.loads((ROOT / "docs" / "session.schema.json").read_bytes())
jsonschema.Draft202012Validator.check_schema(schema)
takes = jsonschema.Draft202012Validator(schema).is_valid

for example in sorted((ROOT / "examples").glob("*.json")):
    if not takes(json.loads(example.read_bytes())):
        print(f"examples/{example.name} is refused")
for case in sorted((ROOT / "cases").iterdir()):
    text = case / "stdin"
    said = (case / "stderr").read_text() if (case / "stderr").is_file() else ""
    if not text.is_file() or said.startswith("p4db: session fault 1 "):
        continue
    try:
        session = json.loads(text.read_bytes())
    except ValueError:
        continue
    is_taken = takes(session)
    if said.startswith(("p4db: session fault 2 ", "p4db: session fault 3 ")):
        if is_taken and case.name not in BEYOND:
            print(f"cases/{case.name} is taken, though the program says: {said.strip()}")
    elif not said.startswith("p4db: session fault") and not is_taken:
        print(f"cases/{case.name} is refused")
