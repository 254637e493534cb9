"""`tools/install`: into a folder with a blank in its name, used from there, and taken away again."""
import re
import shutil
import tempfile
from pathlib import Path

from packages.rows import TOP, VERSION, files_below, having, run, shell, with_variables

INSTALL = TOP / "tools/install"
PROGRAMS = ["neldrafi", "strkw"]
SUBCOMMANDS = ["text", "formats", "check", "explain", "infer"]
MAJOR = VERSION.split(".", maxsplit=1)[0]
INSTALLED = sorted([
    *(f"bin/{program}" for program in PROGRAMS),
    "include/strkw.h", "lib/libstrkw.a", "lib/libstrkw.so", f"lib/libstrkw.so.{MAJOR}", f"lib/libstrkw.so.{VERSION}",
    "lib/pkgconfig/strkw.pc", "share/bash-completion/completions/neldrafi", "share/doc/neldrafi/LICENSE",
    "share/fish/vendor_completions.d/neldrafi.fish", "share/man/man1/neldrafi.1", "share/man/man1/strkw.1",
    "share/man/man3/strkw.3",
    "share/neldrafi/manifest", "share/zsh/site-functions/_neldrafi",
])
PAGES = ["man1/neldrafi.1", "man1/strkw.1", "man3/strkw.3"]
# The completions below share/ that bash does not read.
OTHER_SHELLS = {"zsh": "zsh/site-functions/_neldrafi", "fish": "fish/vendor_completions.d/neldrafi.fish"}
# In bash, what completes the words of a command; the last of them may be empty.
COMPLETE = """
. "$1/share/bash-completion/completions/neldrafi"
shift
COMP_WORDS=("$@")
COMP_CWORD=$(($# - 1))
_neldrafi
printf '%s\\n' "${COMPREPLY[@]}"
"""


def refusals(rows, folder):
    """What is not built is named, with the command that builds it, and nothing is installed."""
    bare = folder / "bare"
    (bare / "tools").mkdir(parents=True)
    shutil.copy(INSTALL, bare / "tools/install")
    shutil.copy(TOP / "VERSION", bare / "VERSION")
    done = rows.ran("install of nothing", [bare / "tools/install", folder / "none"], status=2)
    for told in [*(f"(cd crates/{program} && rt run < /dev/null)" for program in PROGRAMS), ": bindings/build"]:
        rows.row(f"install tells {told}", told in done.stderr, done.stderr)
    rows.row("install of nothing leaves nothing", not (folder / "none").exists())
    rows.ran("install needs a prefix", [INSTALL], status=2)
    rows.ran("install needs a whole path", [INSTALL, "usr"], status=2)
    rows.ran("uninstall of nothing", [INSTALL, "--uninstall", folder / "none"], status=2)


def commands(rows, prefix):
    """The programs can be run where they were put."""
    for program in PROGRAMS:
        path = prefix / "bin" / program
        rows.row(f"{program} can be run", path.stat().st_mode & 0o111 == 0o111, oct(path.stat().st_mode))
    neldrafi = prefix / "bin/neldrafi"
    rows.ran("neldrafi text", [neldrafi, "text", "date", "2024-02-29"], "valid\n")
    rows.ran("the version", [neldrafi, "--version"], f"neldrafi {VERSION}\n")


def caller_of(page):
    """The program in C that a page of the manual shows."""
    return re.search(r"^\.Bd -literal\n(#include.*?)^\.Ed", page, re.M | re.S)[1]


def in_c(rows, prefix, folder):
    """The caller of the manual, against the shared and the static library, by pkg-config."""
    if not having("cc", "a caller in C") or not having("pkg-config", "a caller in C by pkg-config"):
        return
    source = folder / "is_date.c"
    source.write_text(caller_of((prefix / "share/man/man3/strkw.3").read_text(encoding="utf-8")), encoding="utf-8")
    found = with_variables(PKG_CONFIG_PATH=prefix / "lib/pkgconfig")
    rows.ran("the version of strkw.pc", ["pkg-config", "--modversion", "strkw"], f"{VERSION}\n", env=found)
    for kind, words in {"shared": "", "static": "-static"}.items():
        program = folder / f"is_date_{kind}"
        build = f'eval "cc -Wall -Wextra -Werror -o \\"\\$1\\" \\"\\$2\\" {words} $(pkg-config --cflags --libs strkw)"'
        done = shell(build, program, source, env=found)
        if rows.row(f"a caller over the {kind} library", done.returncode == 0, done.stderr):
            where = with_variables(LD_LIBRARY_PATH=prefix / "lib")
            rows.ran(f"a date by the {kind} library", [program, "2024-02-29"], "valid\n", env=where)
            rows.ran(f"no date by the {kind} library", [program, "2023-02-29"], "invalid\n", env=where)
    if having("readelf", "the name of the shared library"):
        needed = run(["readelf", "-d", folder / "is_date_shared"]).stdout
        rows.row("the caller needs the library by its first number", f"[libstrkw.so.{MAJOR}]" in needed, needed)


def helps(prefix):
    """The long options of each subcommand, as its help lists them."""
    told = {}
    for subcommand in SUBCOMMANDS:
        text = run([prefix / "bin/neldrafi", subcommand, "--help"]).stdout
        told[subcommand] = set(re.findall(r"^ +(?:-\w, )?(--[\w-]+)", text, re.M))
    return told


def completions(rows, prefix, options):
    """What bash, zsh and fish complete, beside what the command's own help tells."""
    neldrafi = prefix / "bin/neldrafi"
    if having("bash", "the completion for bash"):
        def completed(*words):
            """The words that the shell offers behind these."""
            done = run(["bash", "-c", COMPLETE, "bash", prefix, neldrafi, *words])
            return set(done.stdout.split()) if done.returncode == 0 else done.stderr

        rows.equal("bash completes subcommands", completed(""), {*SUBCOMMANDS, "--help", "--version"})
        rows.equal("bash completes part of a subcommand", completed("ch"), {"check"})
        rows.equal("bash completes a draft", completed("text", "--draft", "20"), {"2019-09", "2020-12"})
        forms = {subcommand: completed(subcommand, "--output", "") for subcommand in ("check", "formats")}
        words = {"check": {"text", "json", "github", "junit", "sarif"}, "formats": {"text", "json"}}
        rows.equal("bash completes a form", forms, words)
        rows.equal("bash completes a format", completed("text", "date"), {"date", "date-time"})
        rows.equal("bash completes a file", completed("check", str(prefix / "inc")), {*str(prefix / "include").split()})
        for subcommand, long in options.items():
            rows.equal(f"bash completes the options of {subcommand}", completed(subcommand, "--"), long)
    for program, name in OTHER_SHELLS.items():
        script = prefix / "share" / name
        text = script.read_text(encoding="utf-8")
        told = {f"--{word}" for word in re.findall(r"(?:--|-l )([a-z][\w-]+)", text)} & set().union(*options.values())
        rows.equal(f"{program} knows the options", told, set().union(*options.values()))
        if having(program, f"the completion for {program}"):
            rows.ran(f"{program} reads its completion", [program, "-n", script], "")
    if shutil.which("fish"):
        asked = 'set PATH $argv[1] $PATH; source $argv[2]; complete -C "neldrafi text --ig"; complete -C "neldrafi ch"'
        done = run(["fish", "--no-config", "-c", asked, prefix / "bin", prefix / "share" / OTHER_SHELLS["fish"]])
        rows.equal("fish completes", [line.split("\t")[0] for line in done.stdout.splitlines()], ["check"])


def pages(rows, prefix, options):
    """The manual: no warning, each option of the help, and each function and status of the header."""
    manual = prefix / "share/man"
    texts = {page: (manual / page).read_text(encoding="utf-8") for page in PAGES}
    for page in texts:
        rows.row(f"{page} has the version", VERSION in texts[page] and "@VERSION@" not in texts[page])
        if having("man", f"the warnings of man about {page}"):
            done = run(["man", "--warnings", "-l", manual / page], env=with_variables(LC_ALL="C.UTF-8", MANWIDTH="100"))
            rows.row(f"man warns of nothing in {page}", done.returncode == 0 and not done.stderr, done.stderr)
        if having("mandoc", f"the warnings of mandoc about {page}"):
            rows.ran(f"mandoc warns of nothing in {page}", ["mandoc", "-Tlint", "-Wwarning", manual / page], "")
    for subcommand, long in options.items():
        lines = texts["man1/neldrafi.1"].partition(f".Cm {subcommand}\n")[2].partition("\n.Nm\n")[0]
        told = {f"-{word}" for word in re.findall(r"Fl (?:\w \| Fl )?(-[\w-]+)", lines)} | {"--help"}
        rows.equal(f"neldrafi(1) has the options of {subcommand}", told, long)
    header = (prefix / "include/strkw.h").read_text(encoding="utf-8")
    for name in re.findall(r"\b(strkw_\w+)\(", header) + re.findall(r"^    (STRKW_\w+) =", header, re.M):
        rows.row(f"strkw(3) has {name}", re.search(rf"\b{name}\b", texts["man3/strkw.3"]))


def uninstalls(rows, prefix):
    """An uninstall leaves what is not of the install, and no folder that the install made."""
    foreign = prefix / "share/man/man1/other.1"
    foreign.write_text("", encoding="utf-8")
    rows.ran("uninstall", [INSTALL, "--uninstall", prefix], "")
    rows.equal("uninstall leaves another file", files_below(prefix),
               ["share", "share/man", "share/man/man1", "share/man/man1/other.1"])
    shutil.rmtree(prefix)
    (prefix / "bin").mkdir(parents=True)
    (prefix / "bin/strkw").write_text("", encoding="utf-8")
    rows.ran("install beside a file of another", [INSTALL, prefix], status=2)
    rows.equal("install overwrites no file of another", files_below(prefix), ["bin", "bin/strkw"])


def by_make(rows, folder):
    """The Makefile, into a DESTDIR, twice."""
    if not having("make", "`make install`"):
        return
    root, words = folder / "a root", ["make", "-C", TOP, "PREFIX=/opt/a prefix", f"DESTDIR={folder / 'a root'}"]
    told = "make install PREFIX=/usr/local DESTDIR= LIBDIR=lib\nmake uninstall PREFIX=/usr/local DESTDIR= LIBDIR=lib\n"
    rows.ran("make alone tells what there is", ["make", "-s", "-C", TOP], told, env=with_variables())
    for time in ["once", "again"]:
        rows.ran(f"make install, {time}", [*words, "install"], env=with_variables())
        found = [path for path in files_below(root / "opt/a prefix") if not (root / "opt/a prefix" / path).is_dir()]
        rows.equal(f"make install, {time}, puts the files", found, INSTALLED)
    rows.ran("make uninstall", [*words, "uninstall"], env=with_variables())
    rows.equal("make uninstall leaves no file", [path for path in files_below(root) if not (root / path).is_dir()], [])
    rows.row("make uninstall takes the prefix away", not (root / "opt/a prefix").exists(), files_below(root))
    in_another_folder(rows, root, words)


def in_another_folder(rows, root, words):
    """The Makefile with another folder of libraries, and with one that is not below the prefix."""
    for libdir in ("lib/x86_64-linux-gnu", "/opt/a prefix/lib64"):
        below = libdir.removeprefix("/opt/a prefix/")
        rows.ran(f"make install LIBDIR={libdir}", [*words, f"LIBDIR={libdir}", "install"], env=with_variables())
        found = [path for path in files_below(root / "opt/a prefix") if not (root / "opt/a prefix" / path).is_dir()]
        wanted = sorted(path.replace("lib/", f"{below}/", 1) if path.startswith("lib/") else path for path in INSTALLED)
        rows.equal(f"make install LIBDIR={libdir} puts the files", sorted(found), wanted)
        flags = with_variables(PKG_CONFIG_PATH=root / "opt/a prefix" / below / "pkgconfig")
        if having("pkg-config", "the flags of LIBDIR"):
            rows.ran(f"pkg-config finds the libraries in {libdir}", ["pkg-config", "--exists", "strkw"], "", env=flags)
        rows.ran(f"make uninstall LIBDIR={libdir}", [*words, "uninstall"], env=with_variables())
    rows.ran("make install beside the prefix", [*words, "LIBDIR=/usr/lib", "install"], status=2, env=with_variables())


def rows_of(rows):
    """Installs what was built into a folder, and asks what is there."""
    with tempfile.TemporaryDirectory() as made:
        folder = Path(made)
        refusals(rows, folder)
        prefix = folder / "a prefix"
        if rows.ran("install", [INSTALL, prefix], "").returncode:
            return
        found = [path for path in files_below(prefix) if not (prefix / path).is_dir()]
        rows.equal("install puts the files", found, INSTALLED)
        commands(rows, prefix)
        in_c(rows, prefix, folder)
        options = helps(prefix)
        completions(rows, prefix, options)
        pages(rows, prefix, options)
        uninstalls(rows, prefix)
        by_make(rows, folder)
