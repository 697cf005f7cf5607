// What resetd_member.h declares, for Rust.

#[repr(C)]
pub struct Work {
    pub is_there: bool,
    pub epoch: u64,
}

#[repr(C)]
#[derive(Default)]
pub struct Judged {
    pub due: u32,
    pub epoch: u64,
    pub start_length: usize,
    pub line_length: usize,
    pub history_size: usize,
}

unsafe extern "C" {
    pub fn resetd_judge(show: *const u8, show_length: usize, node: u8, start: *const u8, start_length: usize, history: *const u8,
        history_length: usize, work: &Work, out: *mut u8, room: usize, judged: &mut Judged) -> u32;
    pub fn resetd_begun(node: u8, epoch: u64, out: *mut u8, room: usize, length: &mut usize) -> u32;
    pub fn resetd_loaded(node: u8, epoch: u64, boot: *const u8, boot_length: usize, out: *mut u8, room: usize, length: &mut usize) -> u32;
    pub fn resetd_carried(node: u8, start: *const u8, start_length: usize, boot: *const u8, boot_length: usize, out: *mut u8, room: usize,
        length: &mut usize) -> u32;
    pub fn resetd_tag(show: *const u8, show_length: usize, node: u8, start: *const u8, start_length: usize, word: *const u8,
        word_length: usize, out: *mut u8, room: usize, length: &mut usize) -> u32;
    pub fn resetd_are_parted(own: *const u8, own_length: usize, other: *const u8, other_length: usize) -> bool;
}

pub const OK: u32 = 0;
pub const NO_NODE: u32 = 4;

pub const TALK: u32 = 1;
pub const BEGIN: u32 = 3;
pub const RESET: u32 = 4;

pub const MOST_TEXT: usize = 8192;
