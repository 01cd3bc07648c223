"""A stand-in kit, where the check itself is not what is tried."""
import os
import shutil
import tempfile

from .running import DOOR, ended, scratch, start


# What rt says before it runs the program that it has proved and linked.
PASSES = "echo 'rt: running out/console; to give it other input, run that file yourself'"


class Stand:
    """A checkout with the front door as it is, and an rt and programs that are shell scripts. The check is run at the top of the checkout."""

    def __init__(self, program="cat; printf . >&3", check=PASSES):
        self.home = tempfile.mkdtemp(dir=scratch)
        os.chmod(self.home, 0o755)
        self.checkout = os.path.join(self.home, "a checkout")
        self.door = os.path.join(self.checkout, "namestore")
        kit = os.path.join(self.home, "kit")
        self.bin = os.path.join(kit, "bin")
        self.file("a checkout/crates.txt", "")
        shutil.copy(DOOR, self.door)
        self.file("kit/bin/rt", '#!/bin/sh\n[ "$*" = run ] && cd ../.. && [ "$PWD/crates/console" = "$OLDPWD" ] || exit 2\n. "%s/check"\n' % kit)
        self.file("kit/check", check)
        self.file("a checkout/crates/console/out/console", "#!/bin/sh\n" + program)
        self.env = {"PATH": self.bin + ":" + os.environ["PATH"]}

    def file(self, name, text):
        """Writes an executable file."""
        path = os.path.join(self.home, name)
        os.makedirs(os.path.dirname(path), exist_ok=True)
        with open(path, "w") as file:
            file.write(text)
        os.chmod(path, 0o755)

    def start(self, *words, **how):
        """Starts the front door."""
        return start(how.pop("command", [self.door]) + list(words), env=dict(self.env, **how.pop("env", {})), **how)

    def run(self, *words, data=b"", **how):
        """Runs the front door to its end."""
        return ended(self.start(*words, **how), None if "stdin" in how else data)

    def path_of(self, *names):
        """A path on which, besides the kit, only these tools stand."""
        folder = tempfile.mkdtemp(dir=self.home)
        for name in names:
            os.symlink(os.path.realpath(shutil.which(name)), os.path.join(folder, name))
        return self.bin + ":" + folder
