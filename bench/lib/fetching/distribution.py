"""Source packages of the distribution, by its own programs `apt-get` and `dpkg-source`."""
import glob
import os
import re
import shutil
import subprocess
import tarfile

SYSTEM = "/etc/apt"
MOST_VERSIONS = 6


class Unreachable(Exception):
    """A source isn't there: no program to fetch it, no source lines, no network, or no such package."""


def codename():
    """The name of the distribution's release, as `bookworm`."""
    try:
        with open("/etc/os-release", encoding="utf-8") as file:
            found = re.search(r'^VERSION_CODENAME="?([\w.-]+)"?$', file.read(), re.M)
    except OSError:
        found = None
    return found[1] if found else ""


def one_line_sources(text):
    """The options, address, suite and components of the lines `deb ..` of a list."""
    for line in text.splitlines():
        found = re.fullmatch(r"\s*deb(?:\s+(\[[^\]]*\]))?\s+(\S+)\s+(\S+)\s+([^#]+?)\s*(?:#.*)?", line)
        if found:
            yield found[1] or "", found[2], found[3], found[4]


def stanza_sources(text):
    """The same of the stanzas of a `.sources` file."""
    for stanza in re.split(r"\n\s*\n", text):
        fields = dict(re.findall(r"^([\w-]+):[ \t]*(.*)$", stanza, re.M))
        if "deb" not in fields.get("Types", "").split():
            continue
        signed = fields.get("Signed-By", "")
        options = f"[signed-by={signed}]" if signed.startswith("/") else ""
        for address in fields.get("URIs", "").split():
            for suite in fields.get("Suites", "").split():
                yield options, address, suite, fields.get("Components", "")


def read(path):
    """The text of a file, or none where it isn't read."""
    try:
        with open(path, encoding="utf-8", errors="replace") as file:
            return file.read()
    except OSError:
        return ""


def source_lines(folder=SYSTEM, release=None):
    """Lines `deb-src ..` for what this machine has of its own release."""
    release = release or codename()
    found = []
    for path in [os.path.join(folder, "sources.list"), *sorted(glob.glob(os.path.join(folder, "sources.list.d", "*")))]:
        reader = stanza_sources if path.endswith(".sources") else one_line_sources
        found += reader(read(path))
    lines = [f"deb-src {options} {address} {suite} {components}".replace("  ", " ") for options, address, suite, components in found
             if release and re.match(re.escape(release) + r"(?=$|[-/])", suite)]
    return list(dict.fromkeys(lines))


def original(description):
    """The archive of what the authors gave out, by the description of a source package of theirs: without the distribution's revision."""
    found = glob.glob(glob.escape(description[:-len(".dsc")].rpartition("-")[0]) + ".orig.tar.*")
    return next((path for path in sorted(found) if not path.endswith(".asc")), description)


class Distribution:
    """The source packages that this machine can fetch, into a folder of its own."""

    def __init__(self, folder):
        self.folder = os.path.join(os.path.abspath(folder), "apt")
        self.options = None

    def prepare(self):
        """Reads the lists of source packages: those of the machine, else by source lines of our own."""
        for name in ("apt-get", "apt-cache", "dpkg-source"):
            if not shutil.which(name):
                raise Unreachable(f"there is no {name} on this machine")
        has_lines = "Sources" in self.call(["apt-get", "indextargets", "--format", "$(CREATED_BY)"], "the lists of packages can't be read")
        self.options = [] if has_lines else self.own_lists()

    def own_lists(self):
        """Fetches lists of source packages into the folder, and gives the options for apt-get to use them."""
        lines = source_lines()
        if not lines:
            raise Unreachable(f"this machine has no source lines, and none of its release ({codename() or 'unknown'}) to make them from")
        for name in ("lists/partial", "archives/partial"):
            os.makedirs(os.path.join(self.folder, name), exist_ok=True)
        path = os.path.join(self.folder, "sources.list")
        with open(path, "w", encoding="utf-8") as file:
            file.write("\n".join(lines) + "\n")
        options = ["-o", f"Dir::Etc::SourceList={path}", "-o", "Dir::Etc::SourceParts=/dev/null",
                   "-o", f"Dir::State::Lists={self.folder}/lists", "-o", f"Dir::Cache={self.folder}"]
        self.call(["apt-get", *options, "update"], "the lists of source packages can't be fetched")
        return options

    def call(self, words, what, folder=None):
        """What a program writes, or Unreachable with its last word."""
        done = subprocess.run(words, cwd=folder, capture_output=True, text=True, errors="replace")
        if done.returncode != 0:
            said = [line for line in done.stderr.splitlines() if line.startswith("E:")] or done.stderr.strip().splitlines()[-1:]
            raise Unreachable(f"{what}: {said[0] if said else f'status {done.returncode}'}")
        return done.stdout

    def versions(self, package):
        """The versions of a source package, the one that apt-get would take first; a mirror may lack some of them."""
        rows = self.call(["apt-cache", *self.options, "madison", package], f"{package} can't be looked up").splitlines()
        fields = [[field.strip() for field in row.split("|")] for row in rows]
        listed = [row[1] for row in fields if len(row) == 3 and row[0] == package and row[2].endswith(" Sources")]
        return list(dict.fromkeys(reversed(listed)))[:MOST_VERSIONS]

    def download(self, package, folder):
        """Fetches the files of a source package into a folder, and gives the name of its description."""
        if self.options is None:
            self.prepare()
        os.makedirs(folder, exist_ok=True)
        refused = Unreachable(f"there is no source package {package}")
        for version in self.versions(package):
            try:
                words = ["apt-get", *self.options, "source", "--download-only", f"{package}={version}"]
                self.call(words, f"{package} can't be fetched", folder)
            except Unreachable as fault:
                refused = fault
                continue
            plain = version.split(":")[-1]
            return os.path.join(folder, f"{package}_{plain}.dsc")
        raise refused

    def unpack(self, description, target, parts=()):
        """Unpacks a source package that was fetched, or only these parts of it."""
        shutil.rmtree(target, ignore_errors=True)
        if parts:
            self.unpack_parts(original(description), target, parts)
            return
        words = ["dpkg-source", "--no-check", "--no-copy", "-x", description, target]
        self.call(words, f"{os.path.basename(description)} can't be unpacked")

    def unpack_parts(self, archive, target, parts):
        """Unpacks these parts of what the authors gave out, without the distribution's changes: a pattern without `/` is a name in any
        folder."""
        refused = f"{os.path.basename(archive)} can't be unpacked"
        try:
            with tarfile.open(archive) as opened:
                top = opened.next().name.split("/")[0]
        except (OSError, tarfile.TarError) as fault:
            raise Unreachable(f"{refused}: {fault}") from fault
        os.makedirs(target)
        words = ["tar", "-x", "-f", archive, "-C", target, "--strip-components=1", "--wildcards", "--wildcards-match-slash"]
        self.call(words + [f"{top}/{part}" if "/" in part else f"*/{part}" for part in parts], refused)
