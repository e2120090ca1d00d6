//! aarch64: no trap flag is needed. Every instruction is 32 bits wide, so the one load or store is decoded, carried out on
//! the open page and stepped over.
use std::ffi::c_void;

use super::_exit;

/// The saved registers in a ucontext: x0 to x30, then sp (as a base it is 31) and pc.
const REGS: usize = 184;
const PC: usize = 32;
/// As the register of a load or store, 31 is no register: it reads 0.
const ZERO: usize = 31;

/// A load or store of 32 bits.
#[derive(Clone, Copy, Debug, PartialEq, Eq)]
struct LoadStore {
    writes: bool,
    register: usize,
    /// The base register and what is added to it (pre- and post-index).
    moves: Option<(usize, i64)>,
}

/// The forms of a load or store of a W register, LOAD aside: the bits that say which, their values, and whether the base
/// moves. In order: LDR and STR with an unsigned offset, unscaled (LDUR, STUR), post-index, pre-index, with a register's
/// offset; LDAR and STLR.
const FORMS: [(u32, u32, bool); 6] = [
    (0xff80_0000, 0xb900_0000, false),
    (0xffa0_0c00, 0xb800_0000, false),
    (0xffa0_0c00, 0xb800_0400, true),
    (0xffa0_0c00, 0xb800_0c00, true),
    (0xffa0_4c00, 0xb820_4800, false),
    (0xffbf_fc00, 0x889f_fc00, false),
];
const LOAD: u32 = 1 << 22;

fn decode(instruction: u32) -> Option<LoadStore> {
    let (.., indexed) = *FORMS.iter().find(|(mask, form, _)| instruction & mask == *form)?;
    let base = (instruction >> 5 & 31) as usize;
    // Bits 20 to 12, signed.
    let offset = (instruction << 11) as i32 >> 23;
    Some(LoadStore {
        writes: instruction & LOAD == 0,
        register: (instruction & 31) as usize,
        moves: indexed.then_some((base, offset as i64)),
    })
}

unsafe fn saved(context: *mut c_void, register: usize) -> *mut u64 {
    unsafe { (context as *mut u8).add(REGS + 8 * register) as *mut u64 }
}

unsafe fn faulting(context: *mut c_void) -> LoadStore {
    let (at, instruction) = unsafe {
        let at = *saved(context, PC);
        (at, *(at as *const u32))
    };
    decode(instruction).unwrap_or_else(|| {
        eprintln!("oracle: {instruction:#010x} at {at:#x} is no load or store of 32 bits that it can decode");
        unsafe { _exit(139) };
    })
}

pub fn prepare() {}

/// Whether the access that faulted is a write.
pub unsafe fn writes(context: *mut c_void) -> bool {
    unsafe { faulting(context).writes }
}

/// Does on the word of the page what the instruction does, and goes on behind it. So it has been carried out.
pub unsafe fn carry_out(context: *mut c_void, word: *mut u32) -> bool {
    unsafe {
        let LoadStore { writes, register, moves } = faulting(context);
        if writes {
            word.write(if register == ZERO { 0 } else { *saved(context, register) as u32 });
        } else if register != ZERO {
            *saved(context, register) = word.read() as u64;
        }
        if let Some((base, offset)) = moves {
            let base = saved(context, base);
            *base = (*base).wrapping_add_signed(offset);
        }
        *saved(context, PC) += 4;
    }
    true
}

#[cfg(test)]
mod tests {
    use super::*;

    /// What an assembler makes of each line.
    #[test]
    fn every_form_is_decoded() {
        let known = [
            (0xb940_0000, false, 0, None),           // ldr w0, [x0]
            (0xb900_0128, true, 8, None),            // str w8, [x9]
            (0xb97f_fc83, false, 3, None),           // ldr w3, [x4, #16380]
            (0xb900_07ff, true, 31, None),           // str wzr, [sp, #4]
            (0xb863_6841, false, 1, None),           // ldr w1, [x2, x3]
            (0xb823_5841, true, 1, None),            // str w1, [x2, w3, uxtw #2]
            (0xb863_c841, false, 1, None),           // ldr w1, [x2, w3, sxtw]
            (0xb863_f841, false, 1, None),           // ldr w1, [x2, x3, sxtx #2]
            (0xb850_00c5, false, 5, None),           // ldur w5, [x6, #-256]
            (0xb80f_f0c5, true, 5, None),            // stur w5, [x6, #255]
            (0xb840_4507, false, 7, Some((8, 4))),   // ldr w7, [x8], #4
            (0xb810_0507, true, 7, Some((8, -256))), // str w7, [x8], #-256
            (0xb84f_fd07, false, 7, Some((8, 255))), // ldr w7, [x8, #255]!
            (0xb81f_0fe7, true, 7, Some((31, -16))), // str w7, [sp, #-16]!
            (0x88df_fc20, false, 0, None),           // ldar w0, [x1]
            (0x889f_fc62, true, 2, None),            // stlr w2, [x3]
        ];
        for (instruction, writes, register, moves) in known {
            assert_eq!(decode(instruction), Some(LoadStore { writes, register, moves }), "{instruction:#010x}");
        }
    }

    /// Loads and stores of another width or kind, and what is neither.
    #[test]
    fn nothing_else_is_decoded() {
        let others = [
            0x3940_0020, // ldrb w0, [x1]
            0x3900_0020, // strb w0, [x1]
            0x7940_0020, // ldrh w0, [x1]
            0xf940_0020, // ldr x0, [x1]
            0xf900_0020, // str x0, [x1]
            0xb980_0020, // ldrsw x0, [x1]
            0x39c0_0020, // ldrsb w0, [x1]
            0x79c0_0020, // ldrsh w0, [x1]
            0x3840_1020, // ldurb w0, [x1, #1]
            0xbd40_0020, // ldr s0, [x1]
            0xbd00_0020, // str s0, [x1]
            0x3d80_0020, // str q0, [x1]
            0x2940_0440, // ldp w0, w1, [x2]
            0x2900_0440, // stp w0, w1, [x2]
            0x885f_7c20, // ldxr w0, [x1]
            0x8802_7c20, // stxr w2, w0, [x1]
            0x885f_fc20, // ldaxr w0, [x1]
            0x8802_fc20, // stlxr w2, w0, [x1]
            0x88df_7c20, // ldlar w0, [x1]
            0x08df_fc20, // ldarb w0, [x1]
            0xc8df_fc20, // ldar x0, [x1]
            0xc89f_fc20, // stlr x0, [x1]
            0xb8bf_c0a4, // ldapr w4, [x5]
            0x9940_8020, // ldapur w0, [x1, #8]
            0xb820_0041, // ldadd w0, w1, [x2]
            0xb820_8041, // swp w0, w1, [x2]
            0x88a0_7c41, // cas w0, w1, [x2]
            0xb840_0820, // ldtr w0, [x1]
            0xb800_0820, // sttr w0, [x1]
            0x1800_0000, // ldr w0, .
            0xf980_0020, // prfm pldl1keep, [x1]
            0xf820_0420, // ldraa x0, [x1]
            0xd503_201f, // nop
        ];
        for instruction in others {
            assert_eq!(decode(instruction), None, "{instruction:#010x}");
        }
    }

    /// A context whose register k holds `start(k)`, stopped at the instruction: its registers when that was carried out,
    /// the pc as how far it went on, and the word.
    fn after(instruction: u32, word: u32) -> (Vec<u64>, u32) {
        let mut context = vec![0u64; REGS / 8 + PC + 1];
        let registers = REGS / 8;
        (0..PC).for_each(|k| context[registers + k] = start(k));
        context[registers + PC] = &raw const instruction as u64;
        let mut word = word;
        assert!(unsafe { carry_out(context.as_mut_ptr() as *mut c_void, &mut word) });
        context[registers + PC] -= &raw const instruction as u64;
        (context[registers..].to_vec(), word)
    }

    fn start(register: usize) -> u64 {
        0xaaaa_0000_5555_0000 + register as u64
    }

    /// The registers that an instruction leaves otherwise, of a page's word of `before`, and that word.
    fn changes(instruction: u32, before: u32) -> (Vec<(usize, u64)>, u32) {
        let (registers, word) = after(instruction, before);
        assert_eq!(registers[PC], 4);
        ((0..PC).filter(|&k| registers[k] != start(k)).map(|k| (k, registers[k])).collect(), word)
    }

    #[test]
    fn what_an_instruction_does() {
        let load = |register| (register, 0x8765_4321);
        assert_eq!(changes(0xb940_0000, 0x8765_4321), (vec![load(0)], 0x8765_4321));
        assert_eq!(changes(0xb900_0128, 0x8765_4321), (vec![], 0x5555_0008));
        assert_eq!(changes(0xb900_07ff, 0x8765_4321), (vec![], 0));
        assert_eq!(changes(0xb940_003f, 0x8765_4321), (vec![], 0x8765_4321)); // ldr wzr, [x1]
        assert_eq!(changes(0xb840_4507, 0x8765_4321), (vec![load(7), (8, start(8) + 4)], 0x8765_4321));
        assert_eq!(changes(0xb810_0507, 0x8765_4321), (vec![(8, start(8) - 256)], 0x5555_0007));
        assert_eq!(changes(0xb81f_0fe7, 0x8765_4321), (vec![(31, start(31) - 16)], 0x5555_0007));
    }
}
