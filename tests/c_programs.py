"""How the tests compile C: warnings are errors, and where the compiler has sanitizers, they watch addresses and undefined behaviour."""
import functools
import subprocess
import tempfile

STRICT = ["-Wall", "-Wextra", "-Werror"]
# A finding ends the program with a status that isn't 0.
SANITIZED = ["-g", "-O1", "-fsanitize=address,undefined", "-fno-sanitize-recover=undefined"]


@functools.lru_cache(maxsize=None)
def has_sanitizers() -> bool:
    """Whether the compiler makes programs that sanitizers watch."""
    with tempfile.TemporaryDirectory(prefix="sfq-sanitizers-") as room:
        words = ["cc", *SANITIZED, "-x", "c", "-", "-o", f"{room}/it"]
        try:
            made = subprocess.run(words, input="int main(void) { return 0; }\n", capture_output=True, text=True)
        except OSError:
            return False
        return made.returncode == 0 and subprocess.run([f"{room}/it"], capture_output=True).returncode == 0


def trapping() -> str:
    """Returns the flags by which undefined behaviour ends a program that another one loads, none where the compiler hasn't them."""
    return "-fsanitize=undefined -fno-sanitize=alignment,vptr -fsanitize-undefined-trap-on-error" if has_sanitizers() else ""


def watched() -> list[str]:
    """Returns the flags by which a program is watched, none where the compiler has no sanitizers."""
    return SANITIZED if has_sanitizers() else ["-g", "-O1"]
