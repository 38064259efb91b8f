"""The most memory that a run of a program takes."""
import subprocess
import sys

# Runs the words that it is given and tells the most memory that they took, in kilobytes. The kernel counts what a
# process held before it became a program as the program's own, so it is started by a process that holds little, and not
# by this one.
STARTER = '''
import os, sys
quiet = (os.POSIX_SPAWN_OPEN, 1, os.devnull, os.O_WRONLY, 0)
child = os.posix_spawnp(sys.argv[1], sys.argv[1:], os.environ, file_actions=[quiet])
_, status, used = os.wait4(child, 0)
print(used.ru_maxrss)
sys.exit(status != 0)
'''


def memory(words: list[str], path: str) -> int:
    """The most memory that a run takes with this file as its input, in bytes; of one that takes less than a bare Python
    (some 10 MB), what that takes."""
    starter = [sys.executable, '-I', '-S', '-c', STARTER]
    with open(path, 'rb') as given:
        ran = subprocess.run(starter + words, stdin=given, stdout=subprocess.PIPE, check=False)
    if ran.returncode != 0:
        sys.exit('%s did not end well' % ' '.join(words))
    return int(ran.stdout) * 1024
