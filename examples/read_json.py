import json, subprocess
from fractions import Fraction
written = subprocess.run(["crates/rough/out/rough", "--json"], stdin=open("examples/tour.script"), stdout=subprocess.PIPE, check=True).stdout
for answer in json.loads(written)["sessions"][0]:
    for level in answer.get("levels", []): print(answer["command"], {word: str(Fraction(int(n), int(level["over"]))) for word, n in level["terms"]})
