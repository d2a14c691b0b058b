"""The ARM emulator: Debian's qemu-user, and gcc-arm-linux-gnueabihf for the program that it runs."""
import subprocess
import sys


def needed(command, **words):
    """Runs a command that must succeed."""
    try:
        return subprocess.run(command, check=True, **words)
    except (OSError, subprocess.CalledProcessError) as fault:
        print(fault, file=sys.stderr)
        sys.exit(2)


def output(source, work, given):
    """What a C program, built in the folder work, writes under qemu-arm when it reads the bytes given."""
    work.mkdir(parents=True, exist_ok=True)
    program = work / source.stem
    needed(["arm-linux-gnueabihf-gcc", "-static", "-O1", "-mthumb", "-march=armv7-a", "-mfpu=neon", str(source), "-o",
            str(program)])
    return needed(["qemu-arm", str(program)], input=given, stdout=subprocess.PIPE).stdout
