# What the scripts here have in common: running a command on modules, and timing it.
import os, shutil, subprocess, sys, tempfile, time

DROPS = "-all --remove-unused-module-elements".split()


# the seconds by the clock, the processor seconds and the peak bytes of a command that reads a file and writes another one
def run(command, source, sink):
    begin = time.monotonic()
    pid = os.fork()
    if pid == 0:
        os.dup2(os.open(source, os.O_RDONLY), 0)
        os.dup2(os.open(sink, os.O_WRONLY | os.O_CREAT | os.O_TRUNC, 0o644), 1)
        os.execvp(command[0], command)
    _, status, usage = os.wait4(pid, 0)
    seconds = time.monotonic() - begin
    if status != 0:
        sys.exit(f"bench: {command} answers {os.waitstatus_to_exitcode(status)} on {source}")
    return seconds, usage.ru_utime + usage.ru_stime, usage.ru_maxrss * 1024


# the least seconds of so many rounds, and the peak bytes, of a command on each of the modules
def measure(command_for, modules, sink, rounds):
    total, most = 0.0, 0
    for module in modules:
        runs = [run(command_for(module), module, sink) for _ in range(rounds)]
        total += min(seconds for seconds, _, _ in runs)
        most = max([most, *(peak for _, _, peak in runs)])
    return total, most


# the peak bytes of a command; those of `run` are never below what this process has itself, some ten megabytes, so that Debian's
# `time`, of one megabyte, tells them where it is installed
def peak_of(command, source, sink):
    told = shutil.which("time")
    if not told:
        return run(command, source, sink)[2]
    with tempfile.NamedTemporaryFile("r") as file:
        run([told, "-q", "-f", "%M", "-o", file.name, *command], source, sink)
        return int(file.read()) * 1024


# the command that copies its input by one buffer of the module's size
def whole_copy(module):
    return ["dd", f"bs={os.path.getsize(module)}", "iflag=fullblock", "status=none"]


# the program and its peers: of each the command on a module, and the file that its standard output goes to; wasm-opt and wasm-strip read no
# standard input
def compared(program, parity, output):
    if not shutil.which(program):
        sys.exit(f"bench: there is no program {program}")
    return {
        "walrus-gc": lambda module: ([program], output),
        "wasm-opt": lambda module: (["wasm-opt", *DROPS, module, "-o", output], os.devnull),
        "parity-wasm": lambda module: ([parity], output),
        "wasm-strip": lambda module: (["wasm-strip", module, "-o", output], os.devnull),
        "cat": lambda module: (["cat"], output),
    }


# whether a command is there, and takes a module
def accepts(command, module):
    if not shutil.which(command[0]):
        return False
    with open(module, "rb") as source:
        return subprocess.run(command, stdin=source, stdout=subprocess.DEVNULL, stderr=subprocess.DEVNULL, check=False).returncode == 0


# of each command that takes a module its name, the least processor seconds of so many rounds, in which they take turns, and the peak bytes; as
# each is told, what it wrote is there
def in_turns(commands, module, rounds):
    on_module = {name: command(module) for name, command in commands.items()}
    took = {name: [] for name, (command, _) in on_module.items() if accepts(command, module)}
    for _ in range(rounds):
        for name, times in took.items():
            command, sink = on_module[name]
            times.append(run(command, module, sink)[1])
    for name, times in took.items():
        command, sink = on_module[name]
        yield name, min(times), peak_of(command, module, sink)
