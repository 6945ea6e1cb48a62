// Runs a flat image on the harts of this repository, and prints the words that it leaves in memory:
//     harness IMAGE END WORDS STEPS
// until the program counter is END, with 256 words from the address WORDS on, and STEPS steps at most.
use ctr_buffer::RingStore;
use rv_hart::{Hart, TaskMem};

fn main() {
    let words: Vec<String> = std::env::args().collect();
    let image = std::fs::read(&words[1]).unwrap();
    let number = |i: usize| u64::from_str_radix(&words[i], 16).unwrap();
    let (end, at, most) = (number(2), number(3) as usize - 0x8000_0000, number(4));
    let Ok(mut memory) = TaskMem::new(&image, 1 << 20) else {
        std::process::exit(3);
    };
    let mut hart: Hart<RingStore> = Hart::fresh();
    let mut steps = 0;
    while hart.core().pc != end {
        if steps == most {
            eprintln!("at {:x} after {} steps", hart.core().pc, most);
            std::process::exit(2);
        }
        hart.step(&mut memory, 0);
        steps += 1;
    }
    for word in memory.all()[at..at + 2048].chunks(8) {
        println!("{:016x}", u64::from_le_bytes(word.try_into().unwrap()));
    }
}
