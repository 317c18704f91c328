//! The instruction kinds: byte, name, number of destinations, number of sources (01, "The program file").

/// One instruction kind.
pub struct Kind {
    pub byte: u8,
    pub name: &'static str,
    pub destinations: usize,
    pub sources: usize,
}

macro_rules! kinds {
    ($($name:ident $byte:literal $destinations:literal $sources:literal;)*) => {
        $(pub const $name: u8 = $byte;)*
        pub const ALL: &[Kind] = &[
            $(Kind { byte: $byte, name: stringify!($name), destinations: $destinations, sources: $sources },)*
        ];
    };
}

kinds! {
    MOV 0x10 1 1;        // dst = src
    NOT 0x11 1 1;
    INEG 0x12 1 1;
    IABS 0x13 1 1;
    ISSG 0x14 1 1;       // -1, 0 or 1
    BREV 0x15 1 1;
    POPC 0x16 1 1;
    LSB 0x17 1 1;
    IMSB 0x18 1 1;
    UMSB 0x19 1 1;
    UARL 0x1A 1 1;       // ADDR = src
    I64ABS 0x1B 1 1;
    I64NEG 0x1C 1 1;
    I64SSG 0x1D 1 1;
    LOAD 0x1E 1 1;       // address

    UADD 0x20 1 2;
    UMUL 0x21 1 2;
    IMUL_HI 0x22 1 2;
    UMUL_HI 0x23 1 2;
    IDIV 0x24 1 2;
    UDIV 0x25 1 2;
    MOD 0x26 1 2;
    UMOD 0x27 1 2;
    AND 0x28 1 2;
    OR 0x29 1 2;
    XOR 0x2A 1 2;
    IMIN 0x2B 1 2;
    IMAX 0x2C 1 2;
    UMIN 0x2D 1 2;
    UMAX 0x2E 1 2;
    SHL 0x2F 1 2;        // value, count
    ISHR 0x30 1 2;
    USHR 0x31 1 2;
    ISLT 0x32 1 2;
    USLT 0x33 1 2;
    ISGE 0x34 1 2;
    USGE 0x35 1 2;
    USEQ 0x36 1 2;
    USNE 0x37 1 2;

    U64ADD 0x40 1 2;
    U64MUL 0x41 1 2;
    U64DIV 0x42 1 2;
    U64MOD 0x43 1 2;
    I64DIV 0x44 1 2;
    I64MOD 0x45 1 2;
    U64MIN 0x46 1 2;
    U64MAX 0x47 1 2;
    I64MIN 0x48 1 2;
    I64MAX 0x49 1 2;
    U64SHL 0x4A 1 2;     // value, count in x (for xy) and y (for zw)
    I64SHR 0x4B 1 2;
    U64SHR 0x4C 1 2;
    U64SEQ 0x4D 1 2;
    U64SNE 0x4E 1 2;
    U64SLT 0x4F 1 2;
    U64SGE 0x50 1 2;
    I64SLT 0x51 1 2;
    I64SGE 0x52 1 2;

    ATOMIMIN 0x56 1 2;   // address, operand
    ATOMIMAX 0x57 1 2;
    STORE 0x58 1 2;      // MEM = address, value
    ATOMUADD 0x59 1 2;
    ATOMXCHG 0x5A 1 2;
    ATOMAND 0x5B 1 2;
    ATOMOR 0x5C 1 2;
    ATOMXOR 0x5D 1 2;
    ATOMUMIN 0x5E 1 2;
    ATOMUMAX 0x5F 1 2;

    UMAD 0x60 1 3;       // factor, factor, summand
    UCMP 0x61 1 3;       // condition, value if not 0, value if 0
    IBFE 0x62 1 3;       // value, offset, bits
    UBFE 0x63 1 3;
    ATOMCAS 0x64 1 3;    // address, expected, new

    BFI 0x70 1 4;        // base, insert, offset, bits

    NOP 0x80 0 0;
    ELSE 0x81 0 0;
    ENDIF 0x82 0 0;
    BGNLOOP 0x83 0 0;
    ENDLOOP 0x84 0 0;
    BRK 0x85 0 0;
    CONT 0x86 0 0;
    DEFAULT 0x87 0 0;
    ENDSWITCH 0x88 0 0;
    END 0x89 0 0;

    UIF 0x90 0 1;        // condition
    SWITCH 0x91 0 1;     // selector
    CASE 0x92 0 1;       // immediate
}

/// Not instructions: the two kinds that come before them.
pub const DECLARATION: u8 = 0x01;
pub const IMMEDIATE: u8 = 0x02;

/// The place of each kind in `ALL`, by kind byte.
const PLACES: [Option<u8>; 256] = {
    let mut places = [None; 256];
    let mut i = 0;
    while i < ALL.len() {
        places[ALL[i].byte as usize] = Some(i as u8);
        i += 1;
    }
    places
};

/// The instruction kind of a byte, if it is one.
pub fn instruction(byte: u8) -> Option<&'static Kind> {
    PLACES[byte as usize].map(|i| &ALL[i as usize])
}

/// The instruction kind of a mnemonic.
pub fn by_name(name: &str) -> Option<&'static Kind> {
    ALL.iter().find(|kind| kind.name == name)
}

/// Comparisons of 64-bit values: one word of result for each pair.
pub fn is_comparison64(byte: u8) -> bool {
    (U64SEQ..=I64SGE).contains(&byte)
}

/// Kinds whose results are pairs of words.
pub fn is_pair(byte: u8) -> bool {
    (I64ABS..=I64SSG).contains(&byte) || (U64ADD..=U64SHR).contains(&byte)
}

/// The kinds that act on one word of memory and give the old one.
pub fn is_atomic(byte: u8) -> bool {
    byte == ATOMCAS || (ATOMIMIN..=ATOMUMAX).contains(&byte) && byte != STORE
}

pub fn is_memory(byte: u8) -> bool {
    byte == LOAD || byte == STORE || is_atomic(byte)
}

/// "Negate only in kinds 12-14, 20-37, 60."
pub fn may_negate(byte: u8) -> bool {
    matches!(byte, 0x12..=0x14 | 0x20..=0x37 | 0x60)
}
