"""Made sections, kept in the folder out/rows for the steps that read them: a file each, in the order of the manifest."""
import shutil
from pathlib import Path

from rows import manifest
from rows.section import Section

TOP = Path(__file__).resolve().parents[2]
FOLDER = TOP / "out" / "rows"


def keep(sections):
    """Writes the sections into an emptied folder."""
    shutil.rmtree(FOLDER, ignore_errors=True)
    FOLDER.mkdir(parents=True)
    for place, section in enumerate(sections):
        (FOLDER / f"{place}.rows").write_bytes(section.text.encode())


def kept():
    """The sections of the manifest, as they were kept. One that is another than there ends the run."""
    for place, line in enumerate(manifest.stored().values()):
        program, name, rows, answers, checksum, _ = line.split("\t")
        file = FOLDER / f"{place}.rows"
        if not file.exists():
            raise SystemExit("rows: no made rows are kept: run `python3 tools/rows --made` first")
        section = Section(program, name, file.read_bytes().decode(), int(rows), int(answers))
        if section.sha256 != checksum:
            raise SystemExit(f"rows: {section.title}: {file} is not what the manifest has: run `python3 tools/rows --made`")
        yield section
