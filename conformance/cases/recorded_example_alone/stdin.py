import os
import subprocess
import sys

TOP = os.path.dirname(os.path.dirname(os.path.dirname(os.path.dirname(os.path.abspath(__file__)))))
subprocess.run([sys.executable, os.path.join(TOP, "tools", "record"), os.path.join(TOP, "examples", "own_driver.accesses")], check=True)
