"""many_scripts.py FOLDER COUNT: makes so many scripts in FOLDER, each with a pack of its own, of which it reads a sector, shows
words of it and writes them to another one. Every tenth saves its pack over itself, every 25th as one more."""
import os
import random
import sys

SCRIPT = """mount 0 {name}.pack rw
deposit 1000 777
start 1000
deposit 777406 177400
deposit 777410 2000
deposit 777412 {read}
deposit 777404 5
step 20000
examine 2000 8
deposit 777406 177400
deposit 777410 2000
deposit 777412 {write}
deposit 777404 3
step 20000
changed 0
regs
"""


def main(folder, count):
    chance = random.Random(count)
    os.makedirs(folder)
    for number in range(count):
        name = f"{number:04}"
        sectors = chance.randint(1, 9)
        script = SCRIPT.format(name=name, read=f"{chance.randrange(sectors):o}", write=f"{chance.randint(10, 11):o}")
        if number % 10 == 0:
            script += f"save 0 {name}.pack\n"
        if number % 25 == 0:
            script += "save 0 more/other.pack\n"
        with open(os.path.join(folder, name + ".pack"), "wb") as file:
            file.write(chance.randbytes(512 * sectors))
        with open(os.path.join(folder, name + ".p11"), "w") as file:
            file.write(script)


main(sys.argv[1], int(sys.argv[2]))
