//! A watch of PC, 1,000 machines, and a fuzz loop, as examples/tasks.py has them.
use p11_sys::*;

struct Machine(p11_handle);

impl Machine {
    fn of(lines: &str) -> Machine {
        let mut machine = Machine(p11_handle::NONE);
        let status = unsafe { p11_new(4, 1024, [0].as_ptr(), 0, &mut machine.0) };
        assert_eq!(status, P11_DONE);
        assert_eq!(unsafe { p11_line(&mut machine.0, lines.as_ptr(), lines.len()) }, P11_DONE);
        machine
    }

    fn run(&mut self, turns: u32) -> p11_run_told {
        let mut told = p11_run_told::default();
        assert_eq!(unsafe { p11_run(&mut self.0, turns, 1, &mut told) }, P11_DONE);
        told
    }

    fn until(&mut self, place: u16) {
        let mut told = p11_run_told::default();
        assert_eq!(unsafe { p11_steps_until(&mut self.0, &place, 1, 1000, &mut told) }, P11_DONE);
    }

    fn r0(&mut self) -> u16 {
        let mut regs = p11_registers::default();
        assert_eq!(unsafe { p11_regs(&mut self.0, &mut regs) }, P11_DONE);
        regs.general[0]
    }
}

impl Drop for Machine {
    fn drop(&mut self) {
        unsafe { p11_drop(&mut self.0) }
    }
}

fn watch() {
    let mut machine = Machine::of("deposit 1000 5200 776\nstart 1000");
    print!("watch:");
    for _ in 0..10 {
        machine.until(0o1002);
        print!(" {}", machine.r0());
    }
    println!();
}

fn thousand() {
    let mut machines: Vec<Machine> =
        (0..1000).map(|number| Machine::of(&format!("set 0 5\ndeposit 1000 62700 {number:o} 0\nstart 1000"))).collect();
    let mut sum = 0u32;
    for machine in &mut machines {
        machine.run(100);
        sum += u32::from(machine.r0());
    }
    println!("machines: {sum}");
}

fn fuzz() {
    let (mut seed, mut ends, mut places) = (1u32, [0; 4], 0u32);
    for _ in 0..1000 {
        let words: String = (0..8)
            .map(|_| {
                seed = seed.wrapping_mul(1103515245).wrapping_add(12345) % (1 << 31);
                format!(" {:o}", seed >> 15)
            })
            .collect();
        let told = Machine::of(&format!("deposit 1000{words}\nset 6 1000\nstart 1000")).run(100);
        ends[usize::from(told.reason)] += 1;
        places += u32::from(told.pc);
    }
    println!("fuzz: {} {} {} {places}", ends[0], ends[1], ends[2]);
}

fn main() {
    watch();
    thousand();
    fuzz();
}
