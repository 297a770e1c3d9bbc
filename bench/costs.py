"""What a run of the program costs: its seconds of the processor, other work aside, and the most memory that it held."""
from counts import PROGRAM
import resource, subprocess, tempfile

MIB = 2**20


def limit(seconds, memory):
    """Gives a process the stack that the system allows, as ./rc does, and at most that many seconds and bytes."""
    _, most = resource.getrlimit(resource.RLIMIT_STACK)
    resource.setrlimit(resource.RLIMIT_STACK, (most, most))
    if seconds:
        resource.setrlimit(resource.RLIMIT_CPU, (seconds, resource.getrlimit(resource.RLIMIT_CPU)[1]))
    if memory:
        resource.setrlimit(resource.RLIMIT_AS, (memory, memory))


def cost(word, data, seconds=None, memory=None):
    """The status of the program on these bytes, its seconds and its bytes of memory. One that a signal ends has 128 and
    the signal's number as its status, as a shell says it."""
    with tempfile.NamedTemporaryFile() as document, tempfile.NamedTemporaryFile("r") as report:
        document.write(data)
        document.seek(0)
        words = ["/usr/bin/time", "-f", "%U %S %M", "-o", report.name, PROGRAM, word]
        run = subprocess.run(words, stdin=document, stdout=subprocess.DEVNULL, stderr=subprocess.DEVNULL,
                             preexec_fn=lambda: limit(seconds, memory))
        user, system, kibibytes = report.read().split()[-3:]
    return run.returncode, float(user) + float(system), int(kibibytes) * 1024
