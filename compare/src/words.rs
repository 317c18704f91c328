//! Instruction arithmetic on words and on 64-bit values.

use crate::kinds::*;

const ALL_ONES: u32 = u32::MAX;

/// "Comparisons give all ones or 0."
pub fn truth(holds: bool) -> u32 {
    if holds {
        ALL_ONES
    } else {
        0
    }
}

/// One source, one word.
pub fn unary(kind: u8, a: u32) -> u32 {
    match kind {
        MOV | UARL => a,
        NOT => !a,
        INEG => a.wrapping_neg(),
        IABS => (a as i32).wrapping_abs() as u32,
        ISSG => (a as i32).signum() as u32,
        BREV => a.reverse_bits(),
        POPC => a.count_ones(),
        LSB => lsb(a),
        IMSB => imsb(a),
        UMSB => umsb(a),
        _ => unreachable!("not a kind of one source: {kind:02X}"),
    }
}

pub fn lsb(a: u32) -> u32 {
    (0..32).find(|i| a >> i & 1 == 1).unwrap_or(ALL_ONES)
}

pub fn umsb(a: u32) -> u32 {
    (0..32).rev().find(|i| a >> i & 1 == 1).unwrap_or(ALL_ONES)
}

/// "highest 0 bit for negative numbers, highest 1 bit for positive numbers" (001)
pub fn imsb(a: u32) -> u32 {
    umsb(if (a as i32) < 0 { !a } else { a })
}

/// Two sources, one word.
pub fn binary(kind: u8, a: u32, b: u32) -> u32 {
    let (x, y) = (a as i32, b as i32);
    match kind {
        UADD => a.wrapping_add(b),
        UMUL => a.wrapping_mul(b),
        IMUL_HI => imul_hi(a, b),
        UMUL_HI => umul_hi(a, b),
        IDIV => idiv(a, b),
        UDIV => udiv(a, b),
        MOD => imod(a, b),
        UMOD => umod(a, b),
        AND => a & b,
        OR => a | b,
        XOR => a ^ b,
        IMIN => x.min(y) as u32,
        IMAX => x.max(y) as u32,
        UMIN => a.min(b),
        UMAX => a.max(b),
        SHL => a << (b & 31),
        ISHR => (x >> (b & 31)) as u32,
        USHR => a >> (b & 31),
        ISLT => truth(x < y),
        USLT => truth(a < b),
        ISGE => truth(x >= y),
        USGE => truth(a >= b),
        USEQ => truth(a == b),
        USNE => truth(a != b),
        _ => unreachable!("not a kind of two sources: {kind:02X}"),
    }
}

pub fn imul_hi(a: u32, b: u32) -> u32 {
    ((a as i32 as i64 * b as i32 as i64) >> 32) as u32
}

pub fn umul_hi(a: u32, b: u32) -> u32 {
    ((a as u64 * b as u64) >> 32) as u32
}

/// Over i64 the least number by -1 is an ordinary quotient; its low word is the least number.
pub fn idiv(a: u32, b: u32) -> u32 {
    match b as i32 as i64 {
        0 => 0,
        divisor => (a as i32 as i64 / divisor) as u32,
    }
}

pub fn imod(a: u32, b: u32) -> u32 {
    match b as i32 as i64 {
        0 => ALL_ONES,
        divisor => (a as i32 as i64 % divisor) as u32,
    }
}

pub fn udiv(a: u32, b: u32) -> u32 {
    a.checked_div(b).unwrap_or(ALL_ONES)
}

pub fn umod(a: u32, b: u32) -> u32 {
    a.checked_rem(b).unwrap_or(ALL_ONES)
}

/// Three sources, one word.
pub fn ternary(kind: u8, a: u32, b: u32, c: u32) -> u32 {
    match kind {
        UMAD => a.wrapping_mul(b).wrapping_add(c),
        UCMP if a != 0 => b,
        UCMP => c,
        IBFE => ibfe(a, b, c),
        UBFE => ubfe(a, b, c),
        _ => unreachable!("not a kind of three sources: {kind:02X}"),
    }
}

/// Offset and bits of a field inside the word; nothing with "offset or bits negative, or sum over 32".
fn field(offset: u32, bits: u32) -> Option<(u32, u32)> {
    let (o, b) = (offset as i32 as i64, bits as i32 as i64);
    (o >= 0 && b >= 0 && o + b <= 32).then_some((offset, bits))
}

pub fn ubfe(value: u32, offset: u32, bits: u32) -> u32 {
    match field(offset, bits) {
        Some((offset, bits)) => ((value as u64 >> offset) & ((1 << bits) - 1)) as u32,
        None => 0,
    }
}

pub fn ibfe(value: u32, offset: u32, bits: u32) -> u32 {
    let unsigned = ubfe(value, offset, bits) as i64;
    match field(offset, bits) {
        Some((_, bits @ 1..)) if unsigned >> (bits - 1) == 1 => (unsigned - (1 << bits)) as u32,
        _ => unsigned as u32,
    }
}

/// "BFI then: base. Bits 0: [..] base."
pub fn bfi(base: u32, insert: u32, offset: u32, bits: u32) -> u32 {
    match field(offset, bits) {
        Some((offset, bits)) => {
            let mask = ((1u64 << bits) - 1) << offset;
            ((insert as u64) << offset & mask | base as u64 & !mask) as u32
        }
        None => base,
    }
}

/// One source, one 64-bit value.
pub fn unary64(kind: u8, a: u64) -> u64 {
    match kind {
        I64ABS => (a as i64).wrapping_abs() as u64,
        I64NEG => a.wrapping_neg(),
        I64SSG => (a as i64).signum() as u64,
        _ => unreachable!("not a 64-bit kind of one source: {kind:02X}"),
    }
}

/// Two sources, one 64-bit value. The shifts have their own function: their count is a word.
pub fn binary64(kind: u8, a: u64, b: u64) -> u64 {
    let (x, y) = (a as i64, b as i64);
    match kind {
        U64ADD => (a as u128 + b as u128) as u64,
        U64MUL => (a as u128 * b as u128) as u64,
        U64DIV => a.checked_div(b).unwrap_or(u64::MAX),
        U64MOD => a.checked_rem(b).unwrap_or(u64::MAX),
        I64DIV if y == 0 => 0,
        I64DIV => (x as i128 / y as i128) as u64,
        I64MOD if y == 0 => u64::MAX,
        I64MOD => (x as i128 % y as i128) as u64,
        U64MIN => a.min(b),
        U64MAX => a.max(b),
        I64MIN => x.min(y) as u64,
        I64MAX => x.max(y) as u64,
        _ => unreachable!("not a 64-bit kind of two sources: {kind:02X}"),
    }
}

/// "64-bit low 6 bits"
pub fn shift64(kind: u8, a: u64, count: u32) -> u64 {
    let count = count % 64;
    match kind {
        U64SHL => a << count,
        I64SHR => ((a as i64) >> count) as u64,
        U64SHR => a >> count,
        _ => unreachable!("not a 64-bit shift: {kind:02X}"),
    }
}

pub fn comparison64(kind: u8, a: u64, b: u64) -> u32 {
    truth(match kind {
        U64SEQ => a == b,
        U64SNE => a != b,
        U64SLT => a < b,
        U64SGE => a >= b,
        I64SLT => (a as i64) < b as i64,
        I64SGE => a as i64 >= b as i64,
        _ => unreachable!("not a 64-bit comparison: {kind:02X}"),
    })
}

/// The word an atomic leaves where `old` was; `new` is used by ATOMCAS alone.
pub fn atomic(kind: u8, old: u32, operand: u32, new: u32) -> u32 {
    match kind {
        ATOMIMIN => (old as i32).min(operand as i32) as u32,
        ATOMIMAX => (old as i32).max(operand as i32) as u32,
        ATOMUADD => old.wrapping_add(operand),
        ATOMXCHG => operand,
        ATOMAND => old & operand,
        ATOMOR => old | operand,
        ATOMXOR => old ^ operand,
        ATOMUMIN => old.min(operand),
        ATOMUMAX => old.max(operand),
        ATOMCAS if old == operand => new,
        ATOMCAS => old,
        _ => unreachable!("not an atomic: {kind:02X}"),
    }
}
