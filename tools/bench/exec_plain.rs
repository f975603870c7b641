//! The loop of exec_bench in plain Rust: words fetched byte by byte from a flat memory, decoded into an
//! enum, and run. Build it by `rustc -O exec_plain.rs`.

const BASE: u32 = 0x2_0000;
const END: u32 = 0x2_1000;

#[derive(Clone, Copy)]
enum Instr {
    Lui(u8, u32),
    Auipc(u8, u32),
    Jal(u8, i32),
    Jalr(u8, u8, i32),
    Branch(u32, u8, u8, i32),
    Load(u32, u8, u8, i32),
    Store(u32, u8, u8, i32),
    Immediate(u32, u8, u8, i32),
    Shift(u32, bool, u8, u8, u32),
    Registers(u32, bool, u8, u8, u8),
    Fence,
    Ecall,
    Ebreak,
}

fn decode(word: u32) -> Option<Instr> {
    let rd = (word >> 7 & 31) as u8;
    let rs1 = (word >> 15 & 31) as u8;
    let rs2 = (word >> 20 & 31) as u8;
    let funct3 = word >> 12 & 7;
    let funct7 = word >> 25;
    let i = word as i32 >> 20;
    let s = (word as i32 >> 25) << 5 | (word >> 7 & 31) as i32;
    let b = (word as i32 >> 31) << 12 | ((word >> 7 & 1) << 11 | (word >> 25 & 63) << 5 | (word >> 8 & 15) << 1) as i32;
    let j = (word as i32 >> 31) << 20 | ((word >> 12 & 255) << 12 | (word >> 20 & 1) << 11 | (word >> 21 & 1023) << 1) as i32;
    Some(match word & 127 {
        0x37 => Instr::Lui(rd, word & !0xfff),
        0x17 => Instr::Auipc(rd, word & !0xfff),
        0x6f => Instr::Jal(rd, j),
        0x67 if funct3 == 0 => Instr::Jalr(rd, rs1, i),
        0x63 if funct3 != 2 && funct3 != 3 => Instr::Branch(funct3, rs1, rs2, b),
        0x03 if matches!(funct3, 0 | 1 | 2 | 4 | 5) => Instr::Load(funct3, rd, rs1, i),
        0x23 if funct3 < 3 => Instr::Store(funct3, rs1, rs2, s),
        0x13 => match (funct3, funct7) {
            (1, 0) | (5, 0) => Instr::Shift(funct3, false, rd, rs1, rs2 as u32),
            (5, 0x20) => Instr::Shift(funct3, true, rd, rs1, rs2 as u32),
            (1 | 5, _) => return None,
            _ => Instr::Immediate(funct3, rd, rs1, i),
        },
        0x33 => match (funct3, funct7) {
            (_, 0) => Instr::Registers(funct3, false, rd, rs1, rs2),
            (0 | 5, 0x20) => Instr::Registers(funct3, true, rd, rs1, rs2),
            _ => return None,
        },
        0x0f if funct3 == 0 => Instr::Fence,
        0x73 if word == 0x73 => Instr::Ecall,
        0x73 if word == 0x10_0073 => Instr::Ebreak,
        _ => return None,
    })
}

struct Machine {
    pc: u32,
    words: [u32; 32],
    bytes: [u8; 4096],
}

impl Machine {
    fn place(&self, address: u32) -> Option<usize> {
        (BASE <= address && address < END).then(|| (address - BASE) as usize)
    }

    fn load(&self, address: u32, width: u32) -> Option<u32> {
        let mut word = 0;
        for k in 0..width {
            word |= (self.bytes[self.place(address.wrapping_add(k))?] as u32) << (8 * k);
        }
        Some(word)
    }

    fn store(&mut self, address: u32, width: u32, word: u32) -> Option<()> {
        let mut places = [0; 4];
        for k in 0..width {
            places[k as usize] = self.place(address.wrapping_add(k))?;
        }
        for k in 0..width {
            self.bytes[places[k as usize]] = (word >> (8 * k)) as u8;
        }
        Some(())
    }

    fn read(&self, x: u8) -> u32 {
        if x == 0 { 0 } else { self.words[x as usize & 31] }
    }

    fn write(&mut self, x: u8, value: u32) {
        if x != 0 {
            self.words[x as usize & 31] = value;
        }
    }

    fn jump(&mut self, rd: u8, target: u32) -> Option<()> {
        if target % 4 != 0 {
            return None;
        }
        self.write(rd, self.pc.wrapping_add(4));
        self.pc = target;
        Some(())
    }

    fn result(funct3: u32, other: bool, a: u32, b: u32) -> u32 {
        match funct3 {
            0 if other => a.wrapping_sub(b),
            0 => a.wrapping_add(b),
            1 => a << (b & 31),
            2 => ((a as i32) < b as i32) as u32,
            3 => (a < b) as u32,
            4 => a ^ b,
            5 if other => (a as i32 >> (b & 31)) as u32,
            5 => a >> (b & 31),
            6 => a | b,
            _ => a & b,
        }
    }

    fn exec(&mut self, instr: Instr) -> Option<()> {
        match instr {
            Instr::Lui(rd, n) => self.write(rd, n),
            Instr::Auipc(rd, n) => self.write(rd, self.pc.wrapping_add(n)),
            Instr::Jal(rd, n) => return self.jump(rd, self.pc.wrapping_add(n as u32)),
            Instr::Jalr(rd, rs1, n) => return self.jump(rd, self.read(rs1).wrapping_add(n as u32) & !1),
            Instr::Branch(funct3, rs1, rs2, n) => {
                let (a, b) = (self.read(rs1), self.read(rs2));
                let taken = match funct3 {
                    0 => a == b,
                    1 => a != b,
                    4 => (a as i32) < b as i32,
                    5 => a as i32 >= b as i32,
                    6 => a < b,
                    _ => a >= b,
                };
                if taken {
                    return self.jump(0, self.pc.wrapping_add(n as u32));
                }
            }
            Instr::Load(funct3, rd, rs1, n) => {
                let word = self.load(self.read(rs1).wrapping_add(n as u32), 1 << (funct3 & 3))?;
                self.write(rd, match funct3 {
                    0 => word as i8 as u32,
                    1 => word as i16 as u32,
                    _ => word,
                });
            }
            Instr::Store(funct3, rs1, rs2, n) => {
                self.store(self.read(rs1).wrapping_add(n as u32), 1 << funct3, self.read(rs2))?;
            }
            Instr::Immediate(funct3, rd, rs1, n) => self.write(rd, Self::result(funct3, false, self.read(rs1), n as u32)),
            Instr::Shift(funct3, other, rd, rs1, n) => self.write(rd, Self::result(funct3, other, self.read(rs1), n)),
            Instr::Registers(funct3, other, rd, rs1, rs2) => {
                self.write(rd, Self::result(funct3, other, self.read(rs1), self.read(rs2)))
            }
            Instr::Fence => {}
            Instr::Ecall | Instr::Ebreak => return None,
        }
        self.pc = self.pc.wrapping_add(4);
        Some(())
    }
}

fn main() {
    let mut machine = Machine { pc: BASE, words: [0; 32], bytes: [0; 4096] };
    for (k, &word) in [0x0012_8293u32, 0x1003_a303, 0x1053_a023, 0xfe02_9ae3].iter().enumerate() {
        machine.store(BASE + 4 * k as u32, 4, word).unwrap();
    }
    machine.words[7] = BASE;
    for _ in 0..100_000_000 {
        let word = machine.load(machine.pc, 4).unwrap();
        machine.exec(decode(word).unwrap()).unwrap();
    }
    println!("x5 {}", machine.words[5]);
}
