"""Each script of tools/ that is called by its name prints what it is for, where it is asked for help, and does nothing else."""
import glob
import os
import subprocess
import sys
import unittest

from support import ROOT, read


class HelpOfTools(unittest.TestCase):
    def test_help(self):
        scripts = [it for it in sorted(glob.glob(f"{ROOT}/tools/*.py")) if 'if __name__ == "__main__":' in read(it)]
        self.assertGreater(len(scripts), 12)
        for script in scripts:
            name = os.path.basename(script)
            if name in ("shared_rt.py", "unproved.py"):
                # These hand their words on: the kit's command and the program have a help of their own.
                continue
            with self.subTest(name=name):
                ran = subprocess.run([sys.executable, "-B", script, "--help"], capture_output=True, text=True, stdin=subprocess.DEVNULL, timeout=60)
                self.assertEqual((ran.returncode, ran.stderr), (0, ""))
                self.assertGreater(len(ran.stdout.split()), 12)


if __name__ == "__main__":
    unittest.main()
