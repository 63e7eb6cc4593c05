"""What the measurements of whole runs share: the program that ./svp builds, and the cost of one run of it."""
import json
import os
import subprocess
import sys
import tempfile

TOP = os.path.dirname(os.path.dirname(os.path.abspath(__file__)))
PROGRAM = os.path.join(TOP, 'crates', 'svp', 'out', 'svp')


def build():
    """Builds the program where that isn't done: without words it only prints the usage line."""
    subprocess.run([os.path.join(TOP, 'svp')], stdout=subprocess.DEVNULL, check=False)


def example(folder, name):
    """The text of a file of an example, by its folder below `crates`."""
    with open(os.path.join(TOP, 'crates', folder, name)) as file:
        return file.read()


def cost(words, files):
    """The processor seconds and the peak kilobytes of a run with these words, in a folder with these files."""
    with tempfile.TemporaryDirectory() as folder:
        for name, text in files.items():
            with open(os.path.join(folder, name), 'w') as file:
                file.write(text)
        with open(os.devnull, 'wb') as out:
            run = subprocess.Popen([PROGRAM] + words, cwd=folder, stdout=out)
            _, status, usage = os.wait4(run.pid, 0)
        if status != 0:
            sys.exit('`svp %s` ended with status %d' % (' '.join(words), os.waitstatus_to_exitcode(status)))
        return usage.ru_utime + usage.ru_stime, usage.ru_maxrss


def measure(files, events):
    """The cost of `run App.svelte events.json` on these files and events, with the reading of both."""
    return cost(['run', 'App.svelte', 'events.json'], dict(files, **{'events.json': json.dumps({'version': 1, 'events': events})}))


def report(what, count, files, events):
    """Prints what a run of these events takes."""
    seconds, kilobytes = measure(files, events)
    print('%d %s in %.2f s: %d a second, %d MB' % (count, what, seconds, count / seconds, kilobytes / 1024))
