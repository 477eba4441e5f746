"""tasks.py: a watch of PC, 1,000 machines, and a fuzz loop. tasks.c and tasks.rs are the same in C and in Rust, and print the same."""
from p11 import Machine


def watch():
    """What R0 is each time that PC comes to 1002, ten times: INC R0; BR .-2 at 1000."""
    with Machine(kwords=4) as machine:
        machine.deposit(0o1000, 0o5200, 0o776)
        machine.start(0o1000)
        seen = []
        for _ in range(10):
            machine.steps_until([0o1002], 1000)
            seen.append(machine.regs.r0)
        print("watch:", *seen)


def thousand():
    """The sum of R0 of 1,000 machines, each of which adds its number to 5: ADD #N,R0; HALT."""
    machines = [Machine(kwords=4) for _ in range(1000)]
    for number, machine in enumerate(machines):
        machine.set(r0=5)
        machine.deposit(0o1000, 0o62700, number, 0)
        machine.start(0o1000)
        machine.run()
    print("machines:", sum(machine.regs.r0 for machine in machines))


def fuzz():
    """How 1,000 programs of eight random words ended, and the sum of their PCs."""
    seed, ends, places = 1, {"halt": 0, "turns": 0, "idle": 0}, 0
    for _ in range(1000):
        with Machine(kwords=4) as machine:
            for at in range(0o1000, 0o1020, 2):
                seed = (seed * 1103515245 + 12345) % (1 << 31)
                machine.deposit(at, seed >> 15)
            machine.set(ksp=0o1000)
            machine.start(0o1000)
            stop = machine.run(100)
            ends[stop.reason], places = ends[stop.reason] + 1, places + stop.pc
    print("fuzz:", *ends.values(), places)


watch()
thousand()
fuzz()
