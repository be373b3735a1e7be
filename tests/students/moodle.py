"""Packs the sources of a class as Moodle's download of an assignment has them, with names, folders and broken files."""
import codecs
import csv
import random
import shutil
import zipfile

NAMES = "Müller Jörg|Ada Lovelace|O’Brien Seán|Nguyễn Thị Ánh|de la Cruz José|Иванова Анна|山田 太郎|Smith-Jones Eve|Ångström Å|Abu_Bakr 2".split("|")
# What a student may have handed in besides or instead, by what it means: another way to write the
# same text, or no source at all.
SAME = {
    "plain": lambda text: text.encode(),
    "mark": lambda text: codecs.BOM_UTF8 + text.encode(),
    "wide": lambda text: codecs.BOM_UTF16_LE + text.encode("utf-16-le"),
    "windows": lambda text: text.replace("\n", "\r\n").encode(),
}
BROKEN = ["two sources", "a Word document", "an empty file", "two pictures", "a damaged file", "an online text"]


def packed(folder, students, seed):
    """Moves the sources of a folder into download.zip, writes worksheet.csv, and gives who was broken, and how."""
    rng, broken, damaged = random.Random(seed), {}, []
    with zipfile.ZipFile(folder / "download.zip", "w") as zipped, open(folder / "worksheet.csv", "w", newline="", encoding="utf-8-sig") as file:
        rows = csv.writer(file)
        rows.writerow(("Identifier", "Full name", "ID number", "Email address", "Status", "Grade"))
        for at, student in enumerate(students):
            name, number = rng.choice(NAMES), 1000 + 7 * at
            rows.writerow((f"Participant {number}", name, student, f"{student}@example.org", "Submitted for grading", "-"))
            text = (folder / "sources" / f"{student}.mixal").read_text()
            within = f"{name}_{number}_assignsubmission_file" + rng.choice(("_/", "/", "_"))
            what = rng.choice(BROKEN) if rng.random() < 0.1 else rng.choice(list(SAME))
            data, ending = SAME.get(what, SAME["plain"])(text), rng.choice((".mixal", ".mixal", ".MIX", ".txt", ""))
            if what not in SAME:
                broken[student] = what
            if what == "a Word document":
                zipped.writestr(f"{within}homework.docx", b"PK\3\4\x14\0" + rng.randbytes(3000))
            elif what == "an online text":
                zipped.writestr(f"{within.replace('file', 'onlinetext')}onlinetext.html", data)
            elif what == "an empty file":
                zipped.writestr(f"{within}ex{ending}", b"")
            elif what == "two pictures":
                zipped.writestr(f"{within}a.png", rng.randbytes(200))
                zipped.writestr(f"{within}b.png", rng.randbytes(200))
            else:
                zipped.writestr(f"{within}Lösung (1){ending}", data)
                if what == "two sources":
                    zipped.writestr(f"{within}old{ending}", b" HLT\n END 0\n")
                if what == "a damaged file":
                    damaged.append(zipped.infolist()[-1].header_offset + 30 + len(zipped.infolist()[-1].filename.encode()) + 9)
                elif ending == ".mixal" and rng.random() < 0.2:
                    zipped.writestr(f"{within}photo.png", rng.randbytes(300))
                    zipped.writestr(f"__MACOSX/{within}._Lösung (1){ending}", b"\0\5\26\7")
    with open(folder / "download.zip", "r+b") as file:
        for place in damaged:
            file.seek(place)
            file.write(b"\xff\0\xff")
    shutil.rmtree(folder / "sources")
    return broken
