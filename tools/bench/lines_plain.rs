//! Steps of two small loops with a line for each, in plain Rust: RV32I over 2^16 bytes of memory, with an Sv32 walk for each access.
//! Build it by `rustc -O --edition 2021`. The words: `count` (`addi; jal`) or `memory` (`lw; sw; jal`), what each line begins with
//! (eight hexadecimal digits), how many steps, and if need be `walk` (else the page of the last fetch, load and store is kept, each
//! by its number) and `format` (lines by `writeln!`, and not by their digits one by one). Each step decodes its instruction.

use std::{env, io, io::BufWriter, io::Write};

// The root table, its page table, and the pages of code at 0x1000 and of data at 0x2000.
const ROOT: usize = 0x1000;
const TABLE: usize = 0x2000;
const CODE: usize = 0x8000;
const DATA: usize = 0x9000;

// Bits of a page table entry.
const VALID: u32 = 1;
const READ: u32 = 2;
const WRITE: u32 = 4;
const EXECUTE: u32 = 8;

// Kinds of access, and the bit that each asks for.
const FETCH: usize = 0;
const LOAD: usize = 1;
const STORE: usize = 2;
const RIGHTS: [u32; 3] = [EXECUTE, READ, WRITE];

struct Machine {
    pc: u32,
    registers: [u32; 32],
    memory: Vec<u8>,
    keeps: bool,
    // The number and the first byte of the page that was reached last, by kind of access.
    kept: [(u32, usize); 3],
}

impl Machine {
    fn new(program: &[u32], keeps: bool) -> Self {
        let kept = [(u32::MAX, 0); 3];
        let mut machine = Machine { pc: 0x1000, registers: [0; 32], memory: vec![0; 1 << 16], keeps, kept };
        machine.set_word(ROOT, (TABLE as u32 >> 12) << 10 | VALID);
        machine.set_word(TABLE + 4, (CODE as u32 >> 12) << 10 | EXECUTE | VALID);
        machine.set_word(TABLE + 8, (DATA as u32 >> 12) << 10 | READ | WRITE | VALID);
        for (index, word) in program.iter().enumerate() {
            machine.set_word(CODE + 4 * index, *word);
        }
        machine
    }

    fn word(&self, place: usize) -> Option<u32> {
        self.memory.get(place..place + 4)?.try_into().ok().map(u32::from_le_bytes)
    }

    fn set_word(&mut self, place: usize, word: u32) {
        self.memory[place..place + 4].copy_from_slice(&word.to_le_bytes());
    }

    // The first byte of an address's page, by two tables.
    fn walk(&self, address: u32, right: u32) -> Option<usize> {
        let first = self.word(ROOT + 4 * (address >> 22) as usize)?;
        if first & (VALID | READ | WRITE | EXECUTE) != VALID {
            return None;
        }
        let table = ((first >> 10) as usize) << 12;
        let leaf = self.word(table + 4 * (address >> 12 & 0x3FF) as usize)?;
        (leaf & VALID != 0 && leaf & right != 0).then_some(((leaf >> 10) as usize) << 12)
    }

    // Where the bytes at an address are; it has to be a multiple of how many they are.
    fn place(&mut self, address: u32, width: usize, access: usize) -> Option<usize> {
        if address as usize % width != 0 {
            return None;
        }
        let (number, offset) = (address >> 12, (address & 0xFFF) as usize);
        let (kept, base) = self.kept[access];
        if kept == number {
            return Some(base + offset);
        }
        let base = self.walk(address, RIGHTS[access])?;
        if self.keeps {
            self.kept[access] = (number, base);
        }
        Some(base + offset)
    }

    fn load(&mut self, address: u32, width: usize, access: usize) -> Option<u32> {
        let place = self.place(address, width, access)?;
        match width {
            4 => self.word(place),
            2 => Some(self.word(place & !3)? >> (8 * (place & 2)) & 0xFFFF),
            _ => self.memory.get(place).map(|byte| u32::from(*byte)),
        }
    }

    fn store(&mut self, address: u32, width: usize, value: u32) -> Option<()> {
        let place = self.place(address, width, STORE)?;
        self.memory.get_mut(place..place + width)?.copy_from_slice(&value.to_le_bytes()[..width]);
        Some(())
    }

    fn computed(function: u32, other: bool, a: u32, b: u32) -> u32 {
        match function {
            0 if other => a.wrapping_sub(b),
            0 => a.wrapping_add(b),
            1 => a << (b & 31),
            2 => u32::from((a as i32) < b as i32),
            3 => u32::from(a < b),
            4 => a ^ b,
            5 if other => (a as i32 >> (b & 31)) as u32,
            5 => a >> (b & 31),
            6 => a | b,
            _ => a & b,
        }
    }

    fn branches(function: u32, a: u32, b: u32) -> bool {
        match function {
            0 | 1 => (a == b) == (function == 0),
            4 | 5 => ((a as i32) < b as i32) == (function == 4),
            _ => (a < b) == (function == 6),
        }
    }

    // One instruction of RV32I; `None` where it faults or is no plain one.
    fn step(&mut self) -> Option<()> {
        let word = self.load(self.pc, 4, FETCH)?;
        let (mut rd, function) = ((word >> 7 & 31) as usize, word >> 12 & 7);
        let (plain, other) = (word >> 25 == 0, word >> 25 == 0x20);
        let (a, b) = (self.registers[(word >> 15 & 31) as usize], self.registers[(word >> 20 & 31) as usize]);
        let (sign, immediate) = ((word as i32 >> 31) as u32, (word as i32 >> 20) as u32);
        let mut next = self.pc.wrapping_add(4);
        let mut result = next;
        match word & 0x7F {
            0x37 => result = word & !0xFFF,
            0x17 => result = self.pc.wrapping_add(word & !0xFFF),
            0x6F => next = self.pc.wrapping_add(sign << 20 | word & 0xF_F000 | word >> 9 & 0x800 | word >> 20 & 0x7FE),
            0x67 if function == 0 => next = a.wrapping_add(immediate) & !1,
            0x63 if !matches!(function, 2 | 3) => {
                if Self::branches(function, a, b) {
                    next = self.pc.wrapping_add(sign << 12 | word << 4 & 0x800 | word >> 20 & 0x7E0 | word >> 7 & 0x1E);
                }
                rd = 0;
            }
            0x03 if matches!(function, 0 | 1 | 2 | 4 | 5) => {
                let value = self.load(a.wrapping_add(immediate), 1 << (function & 3), LOAD)?;
                result = if function == 0 { value as i8 as u32 } else if function == 1 { value as i16 as u32 } else { value };
            }
            0x23 if function < 3 => {
                self.store(a.wrapping_add(immediate & !31 | word >> 7 & 31), 1 << function, b)?;
                rd = 0;
            }
            0x13 if !matches!(function, 1 | 5) || plain || (other && function == 5) => {
                result = Self::computed(function, other && function == 5, a, immediate);
            }
            0x33 if plain || (other && matches!(function, 0 | 5)) => result = Self::computed(function, other, a, b),
            0x0F if function == 0 => rd = 0,
            _ => return None,
        }
        if next % 4 != 0 {
            return None;
        }
        self.pc = next;
        if rd != 0 {
            self.registers[rd] = result;
        }
        Some(())
    }
}

fn put_digits(line: &mut [u8], number: u32) {
    for (index, digit) in line.iter_mut().enumerate() {
        *digit = b"0123456789abcdef"[(number >> (28 - 4 * index) & 15) as usize];
    }
}

fn main() -> io::Result<()> {
    let words: Vec<String> = env::args().collect();
    let has = |word: &str| words.iter().any(|it| it == word);
    let thread = u32::from_str_radix(&words[2], 16).expect("a number in hexadecimal digits");
    let steps: u32 = words[3].parse().expect("how many steps");
    // addi x5, x5, 1; jal x0, -4 .. lw x6, 0(x7); sw x6, 4(x7); jal x0, -8
    let program: &[u32] = if has("count") { &[0x0012_8293, 0xFFDF_F06F] } else { &[0x0003_A303, 0x0063_A223, 0xFF9F_F06F] };
    let mut machine = Machine::new(program, !has("walk"));
    machine.registers[7] = 0x2000;
    let formats = has("format");
    let mut out = BufWriter::new(io::stdout().lock());
    let mut line = *b"00000000 00000000 plain\n";
    put_digits(&mut line[..8], thread);
    for _ in 0..steps {
        let pc = machine.pc;
        machine.step().expect("only plain instructions");
        if formats {
            writeln!(out, "{thread:08x} {pc:08x} plain")?;
            continue;
        }
        put_digits(&mut line[9..17], pc);
        out.write_all(&line)?;
    }
    out.flush()
}
