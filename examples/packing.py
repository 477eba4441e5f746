"""A session as one file: a ZIP archive of its script, session.p11, and of the packs and tapes that it names."""
import io
import os
import re
import zipfile

NAMES = re.compile(rb"^[ \t]*(?:load|mount[ \t]+[0-7]+)[ \t]+([!-~]+)", re.M)
SAVED = re.compile(rb"^[ \t]*save[ \t]+[0-7]+[ \t]+([!-~]+)", re.M)
EVERYWHERE = "/dev/null"    # every system has it, and so has the page


def is_inside(name):
    """Whether a name stays in the folder in which the archive is unpacked."""
    return not name.startswith("/") and ".." not in name.split("/")


def names_in(script, others=()):
    """The files that a script reads, each once, and others; those that it makes itself needn't be there."""
    made = {it.decode() for it in SAVED.findall(script)}
    names = dict.fromkeys([it.decode() for it in NAMES.findall(script)] + list(others))
    for name in [*names, *made]:
        if name != EVERYWHERE and not is_inside(name):
            raise ValueError(f"{name} isn't below this folder, and would be in no other one's")
    return [name for name in names if name != EVERYWHERE and not (name in made and not os.path.exists(name))]


def packed(place, memory=None, others=()):
    """The bytes of the archive of the script at a place; others are files that it is to have too. Where its memory isn't named, the
    script is as it was, so that its lines keep their numbers."""
    if memory is not None and memory not in range(4, 125, 4):
        raise ValueError(f"there is no machine of {memory} thousand words")
    with open(place, "rb") as file:
        script = file.read()
    if memory is not None:
        script = b"# memory %d\n" % memory + script
    made = io.BytesIO()
    with zipfile.ZipFile(made, "w", zipfile.ZIP_DEFLATED) as archive:
        contents = {"session.p11": script}
        for name in names_in(script, others):
            with open(name, "rb") as file:
                contents[name] = file.read()
        for name, content in contents.items():
            # the same bytes whenever it is made
            archive.writestr(zipfile.ZipInfo(name), content, zipfile.ZIP_DEFLATED)
    return made.getvalue()
