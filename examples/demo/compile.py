# runs the commands that `build.py text --into text` writes
import json, subprocess
for entry in json.load(open("text/compile_commands.json")):
    subprocess.run(entry["arguments"], cwd=entry["directory"], check=True)
