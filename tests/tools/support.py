"""Where the tools are, and how the tests run one: over the second program."""

import os
import subprocess
import sys
from pathlib import Path

ROOT = Path(__file__).resolve().parents[2]
sys.path.insert(0, str(ROOT / "tools"))
TWIN = ROOT / "twin" / "target" / "release" / "twin"


def run_tool(name, *words, data=b""):
    environment = {**os.environ, "RUN_SCHEDULE": str(TWIN)}
    command = [sys.executable, str(ROOT / "tools" / name), *words]
    return subprocess.run(command, input=data, capture_output=True, env=environment, timeout=60, check=False)
