//! The functions of include/pgs.h.

use crate::records::*;

extern "C" {
    pub fn pgs_parse_segments(
        stream: *const u8,
        stream_length: usize,
        segments: *mut Segment,
        segments_length: usize,
        count: *mut u64,
    ) -> u8;
    pub fn pgs_parse_pcs(
        body: *const u8,
        body_length: usize,
        pcs: *mut Pcs,
        placements: *mut Placement,
        placements_length: usize,
        count: *mut u64,
    ) -> u8;
    pub fn pgs_parse_wds(
        body: *const u8,
        body_length: usize,
        windows: *mut Window,
        windows_length: usize,
        count: *mut u64,
    ) -> u8;
    pub fn pgs_parse_pds(
        body: *const u8,
        body_length: usize,
        pds: *mut Pds,
        entries: *mut Entry,
        entries_length: usize,
        count: *mut u64,
    ) -> u8;
    pub fn pgs_parse_ods(body: *const u8, body_length: usize, ods: *mut Ods) -> u8;
    pub fn pgs_decode_rle(
        data: *const u8,
        data_length: usize,
        width: u16,
        height: u16,
        pixels: *mut u8,
        pixels_length: usize,
    ) -> u8;
    pub fn pgs_ycbcr709_to_rgb(y: u8, cb: u8, cr: u8) -> u32;
    pub fn pgs_clear_palette(table: *mut u8, table_length: usize) -> u8;
    pub fn pgs_apply_palette(
        entries: *const Entry,
        entries_length: usize,
        palette_id: u8,
        named: u8,
        table: *mut u8,
        table_length: usize,
    ) -> u8;
    pub fn pgs_parse_display_sets(
        stream: *const u8,
        stream_length: usize,
        sets: *mut DisplaySet,
        sets_length: usize,
        count: *mut u64,
    ) -> u8;
    pub fn pgs_reassemble_objects(
        stream: *const u8,
        stream_length: usize,
        set: u64,
        scratch: *mut u8,
        scratch_length: usize,
        objects: *mut Object,
        objects_length: usize,
        count: *mut u64,
    ) -> u8;
    pub fn pgs_render(
        stream: *const u8,
        stream_length: usize,
        set: u64,
        scratch: *mut u8,
        scratch_length: usize,
        plane: *mut u8,
        plane_length: usize,
        shown: *mut Shown,
    ) -> u8;
    pub fn pgs_cards(
        stream: *const u8,
        stream_length: usize,
        out: *mut u8,
        out_length: usize,
        written: *mut u64,
    ) -> u8;
    pub fn pgs_encode_pcs(
        pts: u32,
        dts: u32,
        pcs: *const Pcs,
        placements: *const Placement,
        placements_length: usize,
        out: *mut u8,
        out_length: usize,
        written: *mut u64,
    ) -> u8;
    pub fn pgs_encode_wds(
        pts: u32,
        dts: u32,
        windows: *const Window,
        windows_length: usize,
        out: *mut u8,
        out_length: usize,
        written: *mut u64,
    ) -> u8;
    pub fn pgs_encode_pds(
        pts: u32,
        dts: u32,
        pds: *const Pds,
        entries: *const Entry,
        entries_length: usize,
        out: *mut u8,
        out_length: usize,
        written: *mut u64,
    ) -> u8;
    pub fn pgs_encode_ods(
        pts: u32,
        dts: u32,
        ods: *const OdsNumbers,
        data: *const u8,
        data_length: usize,
        out: *mut u8,
        out_length: usize,
        written: *mut u64,
    ) -> u8;
    pub fn pgs_encode_end(pts: u32, dts: u32, out: *mut u8, out_length: usize, written: *mut u64) -> u8;
    pub fn pgs_encode_other(
        pts: u32,
        dts: u32,
        kind: u8,
        data: *const u8,
        data_length: usize,
        out: *mut u8,
        out_length: usize,
        written: *mut u64,
    ) -> u8;
    pub fn pgs_write_segments(
        stream: *const u8,
        stream_length: usize,
        writes: u64,
        out: *mut u8,
        out_length: usize,
        accepted: *mut u64,
        written: *mut u64,
    ) -> u8;
}
