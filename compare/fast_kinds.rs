//! What an index names, found by one load, and where a window lies.

// The kinds of an index, 1 + 4 row + width for the digital table.
pub const NONE: u8 = 0;
pub const DIGITAL: u8 = 1;
pub const INPUT_8: u8 = 2;
pub const INPUT_32: u8 = 4;
pub const OUTPUT_8: u8 = 26;
pub const OUTPUT_32: u8 = 28;
pub const DIGITAL_INTERRUPTS: u8 = 45;
pub const VALUE: u8 = 46;
pub const SELECTION: u8 = 47;
pub const SOURCE: u8 = 48;
pub const ANALOGUE_INTERRUPTS: u8 = 49;
pub const LIMIT: u8 = 50;
pub const OUTPUT_VALUE: u8 = 55;
pub const OUTPUT_MODE: u8 = 56;
pub const OUTPUT_ERROR: u8 = 57;
pub const DEVICE_TYPE: u8 = 58;
pub const ERROR_REGISTER: u8 = 59;
pub const ERROR_BEHAVIOUR: u8 = 60;
pub const FILTER_LENGTH: u8 = 61;
pub const WATCH: u8 = 62;
/// 1600 to 1603, then 1A00 to 1A03.
pub const MAPPING: u8 = 63;
const KINDS_ALL: usize = 71;

pub const fn kinds() -> [u8; 0x445] {
    let indices: [[usize; 4]; 11] = [
        [0x020, 0x000, 0x100, 0x120],
        [0x030, 0x002, 0x102, 0x122],
        [0x038, 0x003, 0x103, 0x123],
        [0x050, 0x006, 0x106, 0x126],
        [0x060, 0x007, 0x107, 0x127],
        [0x070, 0x008, 0x108, 0x128],
        [0x220, 0x200, 0x300, 0x320],
        [0x240, 0x202, 0x302, 0x322],
        [0x250, 0x206, 0x306, 0x326],
        [0x260, 0x207, 0x307, 0x327],
        [0x270, 0x208, 0x308, 0x328],
    ];
    let mut kinds = [NONE; 0x445];
    let mut at = 0;
    while at < 44 {
        kinds[indices[at / 4][at % 4]] = DIGITAL + at as u8;
        at += 1;
    }
    kinds[0x005] = DIGITAL_INTERRUPTS;
    kinds[0x401] = VALUE;
    kinds[0x421] = SELECTION;
    kinds[0x422] = SOURCE;
    kinds[0x423] = ANALOGUE_INTERRUPTS;
    let mut limit = 0;
    while limit < 5 {
        kinds[0x424 + limit] = LIMIT + limit as u8;
        limit += 1;
    }
    kinds[0x411] = OUTPUT_VALUE;
    kinds[0x443] = OUTPUT_MODE;
    kinds[0x444] = OUTPUT_ERROR;
    kinds
}

/// The kind of index 6000 + i.
pub static KINDS: [u8; 0x445] = kinds();

/// By kind: the last sub-index; the size of an entry that is no count.
pub const fn shapes() -> [(u8, u8); KINDS_ALL] {
    let mut shapes = [(0, 1); KINDS_ALL];
    let mut at = 0;
    while at < 44 {
        shapes[at + 1] = [(128, 1), (16, 1), (8, 2), (4, 4)][at % 4];
        at += 1;
    }
    shapes[VALUE as usize] = (16, 2);
    shapes[SELECTION as usize] = (16, 1);
    shapes[SOURCE as usize] = (1, 4);
    let mut limit = 0;
    while limit < 5 {
        shapes[LIMIT as usize + limit] = (16, 4);
        limit += 1;
    }
    shapes[OUTPUT_VALUE as usize] = (8, 2);
    shapes[OUTPUT_MODE as usize] = (8, 1);
    shapes[OUTPUT_ERROR as usize] = (8, 4);
    shapes[DEVICE_TYPE as usize] = (0, 4);
    shapes[ERROR_BEHAVIOUR as usize] = (1, 1);
    shapes[WATCH as usize] = (4, 4);
    let mut mapping = MAPPING as usize;
    while mapping < KINDS_ALL {
        shapes[mapping] = (8, 4);
        mapping += 1;
    }
    shapes
}

pub static SHAPES: [(u8, u8); KINDS_ALL] = shapes();

pub fn kind(index: u16) -> u8 {
    match KINDS.get(usize::from(index.wrapping_sub(0x6000))) {
        Some(kind) => *kind,
        None => match index {
            0x1000 => DEVICE_TYPE,
            0x1001 => ERROR_REGISTER,
            0x1016 => WATCH,
            0x1029 => ERROR_BEHAVIOUR,
            0x1600..=0x1603 => MAPPING + (index - 0x1600) as u8,
            0x1A00..=0x1A03 => MAPPING + 4 + (index - 0x1A00) as u8,
            0x2003 => FILTER_LENGTH,
            _ => NONE,
        },
    }
}

/// Where a window starts, and its ones.
pub fn window(kind: u8, sub: u8) -> (usize, usize, u32, u64) {
    let at = usize::from(kind - DIGITAL);
    let log = [0u32, 3, 4, 5][at % 4];
    let start = (u32::from(sub) - 1) << log;
    (at / 4, (start >> 6) as usize & 1, start & 63, (1u64 << (1u32 << log)) - 1)
}
